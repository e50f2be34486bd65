//! Calls with arguments of every kind: mostly right ones, often nearly right, some far off.

use crate::damaged::any_float;
use crate::passing::KINDS;
use plain::Header;
use scenarios::random::Random;

/// A call and its arguments. Answer buffers are given by their lengths.
#[derive(Debug, Clone)]
pub enum Call {
    Begin,
    Add {
        vector: Vec<f32>,
        level: u8,
    },
    Build {
        metric: u16,
    },
    Mark {
        id: u16,
    },
    Search {
        query: Vec<f32>,
        k: usize,
        ids: usize,
        distances: usize,
    },
    SearchRecords {
        query: Vec<f32>,
        k: usize,
        records: usize,
    },
}

impl Call {
    pub fn name(&self) -> &'static str {
        match self {
            Call::Begin => "begin",
            Call::Add { .. } => "add",
            Call::Build { .. } => "build",
            Call::Mark { .. } => "mark",
            Call::Search { .. } => "search",
            Call::SearchRecords { .. } => "search_records",
        }
    }
}

/// A call on an index with this header.
pub fn random_call(header: &Header, random: &mut Random) -> Call {
    match random.below(20) {
        0 => Call::Begin,
        1..=6 => Call::Add {
            vector: random_vector(header, random),
            level: random_level(header, random),
        },
        7..=9 => Call::Build {
            metric: random_metric(header, random),
        },
        10..=12 => Call::Mark {
            id: random_id(header, random),
        },
        13..=16 => {
            let k = random_k(header, random);
            Call::Search {
                query: random_vector(header, random),
                k,
                ids: random_room(k, random),
                distances: random_room(k, random),
            }
        }
        _ => {
            let k = random_k(header, random);
            Call::SearchRecords {
                query: random_vector(header, random),
                k,
                records: random_room(k, random),
            }
        }
    }
}

fn random_vector(header: &Header, random: &mut Random) -> Vec<f32> {
    let right = header.dimension as usize;
    let length = if random.percent(85) {
        right
    } else {
        random.pick(&[0, right.saturating_sub(1), right + 1, 2 * right + 3])
    };
    let mut vector = random.pick(&KINDS).vector(length, random);
    if length > 0 && random.percent(15) {
        let at = random.below(length);
        vector[at] = any_float(random);
    }
    vector
}

fn random_level(header: &Header, random: &mut Random) -> u8 {
    let most = header.max_level.min(255) as usize;
    if random.percent(80) {
        random.between((0, most)) as u8
    } else {
        let past = (most + 1).min(255) as u8;
        let any = random.draw() as u8;
        random.pick(&[past, past, any, 255])
    }
}

fn random_metric(header: &Header, random: &mut Random) -> u16 {
    let any = random.draw() as u16;
    match random.below(4) {
        0 => random.pick(&[0, 4, 5, 6, 65_535, any]),
        1 => random.between((1, 3)) as u16,
        // The one that is not refused with 5.
        _ if header.built > 0 => header.metric,
        _ => random.between((1, 3)) as u16,
    }
}

fn random_id(header: &Header, random: &mut Random) -> u16 {
    let any = random.draw() as u16;
    let past = [header.built, header.added, header.capacity, 65_535, any, 0];
    if header.built > 0 && random.percent(80) {
        random.below(header.built as usize) as u16
    } else {
        random.pick(&past)
    }
}

fn random_k(header: &Header, random: &mut Random) -> usize {
    let built = header.built as usize;
    match random.below(12) {
        0 => 512,
        1 => 513,
        2 => random.pick(&[511, 514, 65_536, usize::MAX - 1, usize::MAX]),
        3 => built,
        4 => built + 1,
        5 => random.between((0, 512)),
        _ => random.between((0, 8)),
    }
}

/// The length of an answer buffer: k as a rule, longer, or shorter. No buffer is as long as the
/// largest k.
fn random_room(k: usize, random: &mut Random) -> usize {
    let k = k.min(600);
    let longer = k + random.below(9);
    let shorter = random.below(k + 1);
    if random.percent(90) {
        random.pick(&[k, longer])
    } else {
        random.pick(&[0, k.saturating_sub(1), shorter])
    }
}
