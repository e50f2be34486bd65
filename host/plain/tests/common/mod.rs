//! An index for the tests: a header and its tables, with 01's calls over them.
#![allow(dead_code)]

use plain::{Header, Neighbor, Outcome, Tables};

#[derive(Clone)]
pub struct Index {
    pub header: Header,
    pub tables: Tables,
}

/// Every cell as its bits, so that a NaN equals itself.
#[derive(Debug, PartialEq)]
pub struct Bits(Header, Vec<u32>, Vec<u8>, Vec<u8>, Vec<u16>);

/// 01's "Profiles on a line": Euclidean, one dimension, `max_level` 0, `n_neighbor0` 2,
/// `ef_build` 4, `ef_search` 1.
pub fn line_header(capacity: u16, has_deletion: u16) -> Header {
    Header::of(&[1, capacity, 1, 2, 0, 4, 1, has_deletion, 0, 0, 0])
}

/// Ids at these places, built.
pub fn line(places: &[f32], has_deletion: u16) -> Index {
    let mut index = Index::begun(line_header(places.len() as u16, has_deletion));
    for place in places {
        assert_eq!(index.add(&[*place], 0), 0);
    }
    assert_eq!(index.build(3), 0);
    index
}

/// Ids 0 to 3 at 0, 10, 4, 5.
pub fn profiles(has_deletion: u16) -> Index {
    line(&[0.0, 10.0, 4.0, 5.0], has_deletion)
}

impl Index {
    pub fn begun(header: Header) -> Index {
        let tables = Tables::zeroed(&header);
        let mut index = Index { header, tables };
        assert_eq!(index.begin(), 0);
        index
    }

    pub fn bits(&self) -> Bits {
        let vectors = self.tables.vectors.iter().map(|c| c.to_bits()).collect();
        let tables = self.tables.clone();
        Bits(
            self.header,
            vectors,
            tables.levels,
            tables.marks,
            tables.links,
        )
    }

    /// The header goes on to the next call; only a search finds anything.
    fn take(&mut self, outcome: Outcome) -> u32 {
        assert_eq!(outcome.found, 0);
        self.header = outcome.header;
        outcome.number
    }

    pub fn begin(&mut self) -> u32 {
        let outcome = plain::begin(self.header, self.tables.lend());
        self.take(outcome)
    }

    pub fn add(&mut self, vector: &[f32], level: u8) -> u32 {
        let outcome = plain::add(self.header, self.tables.lend(), vector, level);
        self.take(outcome)
    }

    pub fn build(&mut self, metric: u16) -> u32 {
        let outcome = plain::build(self.header, self.tables.lend(), metric);
        self.take(outcome)
    }

    pub fn mark(&mut self, id: u16) -> u32 {
        let outcome = plain::mark(self.header, self.tables.lend(), id);
        self.take(outcome)
    }

    /// Both forms of a search, with buffers of these lengths that hold something before. They
    /// must agree, change no table and leave what stands behind the answer.
    pub fn search_into(&mut self, query: &[f32], k: usize, room: (usize, usize)) -> Searched {
        let before = self.bits();
        let mut ids = vec![777; room.0];
        let mut distances = vec![f32::NAN; room.1];
        let lent = self.tables.lend();
        let outcome = plain::search(self.header, lent, query, k, &mut ids, &mut distances);
        let old = Neighbor {
            id: 777,
            distance: f32::NAN,
        };
        let mut records = vec![old; room.0.min(room.1)];
        let lent = self.tables.lend();
        let other = plain::search_records(self.header, lent, query, k, &mut records);
        assert_eq!(other, outcome);
        assert_eq!(outcome.header, self.header);
        assert_eq!(self.bits(), before);
        let found = outcome.found;
        assert!(ids[found..].iter().all(|id| *id == 777));
        let nan = f32::NAN.to_bits();
        assert!(distances[found..].iter().all(|d| d.to_bits() == nan));
        assert!(records[found..].iter().all(|r| r.bits() == (777, nan)));
        let pairs = ids[..found].iter().zip(&distances);
        let list: Vec<(u16, u32)> = pairs.map(|(id, d)| (*id, d.to_bits())).collect();
        let recorded: Vec<(u16, u32)> = records[..found].iter().map(|r| r.bits()).collect();
        assert_eq!(list, recorded);
        Searched {
            number: outcome.number,
            list,
        }
    }

    /// A search that is done, into buffers that are longer than k.
    pub fn search(&mut self, query: &[f32], k: usize) -> Vec<(u16, u32)> {
        let searched = self.search_into(query, k, (k + 2, k + 1));
        assert_eq!(searched.number, 0);
        searched.list
    }

    pub fn list(&self, id: usize, level: usize) -> Vec<u16> {
        self.tables.view().list(&self.header, id, level).to_vec()
    }
}

#[derive(Debug, PartialEq)]
pub struct Searched {
    pub number: u32,
    /// Ids and distance bits.
    pub list: Vec<(u16, u32)>,
}
