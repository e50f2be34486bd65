//! Reads a list, piece by piece: what has been read says how long the next piece is.

use crate::writing::{ADD, BEGIN, BUILD, END_OF_LIST, END_OF_SCENARIO, MAGIC, MARK, SEARCH};
use scenarios::subject::Answer;
use scenarios::{Metric, Params, Scenario, Step};

/// A scenario of the list, with its answers and with the bytes it stands in.
pub struct Entry<'a> {
    pub scenario: Scenario,
    pub answers: Vec<Answer>,
    pub bytes: &'a [u8],
}

pub fn list(bytes: &[u8]) -> Result<Vec<Entry<'_>>, String> {
    let mut reader = Reader { bytes, at: 0 };
    if reader.take(MAGIC.len())? != MAGIC {
        return Err("not a list".to_string());
    }
    let count = reader.u32()?;
    let mut entries = Vec::new();
    for _ in 0..count {
        entries.push(reader.entry()?);
    }
    if reader.u8()? != END_OF_LIST || reader.at != bytes.len() {
        return Err("the list does not end where it should".to_string());
    }
    Ok(entries)
}

struct Reader<'a> {
    bytes: &'a [u8],
    at: usize,
}

impl<'a> Reader<'a> {
    fn take(&mut self, count: usize) -> Result<&'a [u8], String> {
        match self.bytes.get(self.at..self.at + count) {
            Some(part) => {
                self.at += count;
                Ok(part)
            }
            None => Err(format!("the list ends early, at byte {}", self.at)),
        }
    }

    fn u8(&mut self) -> Result<u8, String> {
        Ok(self.take(1)?[0])
    }

    fn u16(&mut self) -> Result<usize, String> {
        let part = self.take(2)?;
        Ok(part[0] as usize + 256 * part[1] as usize)
    }

    fn u32(&mut self) -> Result<u32, String> {
        let part = self.take(4)?;
        Ok(part.iter().rev().fold(0, |n, byte| n << 8 | *byte as u32))
    }

    fn vector(&mut self, dimension: usize) -> Result<Vec<f32>, String> {
        (0..dimension)
            .map(|_| Ok(f32::from_bits(self.u32()?)))
            .collect()
    }

    fn entry(&mut self) -> Result<Entry<'a>, String> {
        let start = self.at;
        if self.u8()? != BEGIN {
            return Err(format!("no scenario begins at byte {start}"));
        }
        let params = self.params()?;
        let mut steps = Vec::new();
        let mut answers = Vec::new();
        loop {
            let tag = self.u8()?;
            if tag == END_OF_SCENARIO {
                break;
            }
            let (step, answer) = self.step(tag, params.dimension)?;
            steps.push(step);
            answers.push(answer);
        }
        Ok(Entry {
            scenario: Scenario { params, steps },
            answers,
            bytes: &self.bytes[start..self.at],
        })
    }

    fn params(&mut self) -> Result<Params, String> {
        Ok(Params {
            dimension: self.u16()?,
            capacity: self.u16()?,
            n_neighbor: self.u16()?,
            n_neighbor0: self.u16()?,
            max_level: self.u16()?,
            ef_build: self.u16()?,
            ef_search: self.u16()?,
            has_deletion: match self.u16()? {
                0 => false,
                1 => true,
                other => return Err(format!("has_deletion is {other}")),
            },
        })
    }

    fn step(&mut self, tag: u8, dimension: usize) -> Result<(Step, Answer), String> {
        match tag {
            ADD => {
                let level = self.u8()? as usize;
                let vector = self.vector(dimension)?;
                Ok((Step::Add { vector, level }, Answer::Done))
            }
            BUILD => {
                let metric = metric(self.u16()?)?;
                Ok((Step::Build { metric }, Answer::Links(self.links()?)))
            }
            MARK => Ok((Step::Mark { id: self.u16()? }, Answer::Done)),
            SEARCH => {
                let k = self.u16()?;
                let query = self.vector(dimension)?;
                Ok((Step::Search { query, k }, Answer::Found(self.found()?)))
            }
            other => Err(format!("tag {other} before byte {}", self.at)),
        }
    }

    fn links(&mut self) -> Result<Vec<Vec<Vec<usize>>>, String> {
        let built = self.u16()?;
        (0..built).map(|_| self.lists_of_an_id()).collect()
    }

    fn lists_of_an_id(&mut self) -> Result<Vec<Vec<usize>>, String> {
        let level = self.u8()?;
        (0..=level).map(|_| self.ids()).collect()
    }

    fn ids(&mut self) -> Result<Vec<usize>, String> {
        let count = self.u16()?;
        (0..count).map(|_| self.u16()).collect()
    }

    fn found(&mut self) -> Result<Vec<(usize, u32)>, String> {
        let count = self.u16()?;
        (0..count).map(|_| Ok((self.u16()?, self.u32()?))).collect()
    }
}

fn metric(number: usize) -> Result<Metric, String> {
    match number {
        1 => Ok(Metric::Manhattan),
        2 => Ok(Metric::DotProduct),
        3 => Ok(Metric::Euclidean),
        other => Err(format!("metric {other}")),
    }
}
