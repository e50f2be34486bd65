//! What is compared: 01's calls over raw slices and the eleven numbers of the header. The plain
//! reading is one; the proved library behind its C interface will be another.

use plain::{Header, Lent, Neighbor, Outcome};

/// A search's number and its found count.
#[derive(Debug, Clone, Copy, PartialEq, Eq)]
pub struct Searched {
    pub number: u32,
    pub found: usize,
}

/// A call returns 01's number. The header is lent; only a done call may change it, and beginning,
/// which takes its first eight numbers and sets the others to 0.
pub trait Library {
    fn begin(&mut self, header: &mut [u16; 11], tables: Lent) -> u32;

    fn add(&mut self, header: &mut [u16; 11], tables: Lent, vector: &[f32], level: u8) -> u32;

    fn build(&mut self, header: &mut [u16; 11], tables: Lent, metric: u16) -> u32;

    fn mark(&mut self, header: &mut [u16; 11], tables: Lent, id: u16) -> u32;

    fn search(
        &mut self,
        header: &mut [u16; 11],
        tables: Lent,
        query: &[f32],
        k: usize,
        ids: &mut [u16],
        distances: &mut [f32],
    ) -> Searched;

    fn search_records(
        &mut self,
        header: &mut [u16; 11],
        tables: Lent,
        query: &[f32],
        k: usize,
        records: &mut [Neighbor],
    ) -> Searched;
}

/// The plain reading of 01.
pub struct Plain;

fn store(header: &mut [u16; 11], outcome: Outcome) -> Searched {
    *header = outcome.header.numbers();
    Searched {
        number: outcome.number,
        found: outcome.found,
    }
}

impl Library for Plain {
    fn begin(&mut self, header: &mut [u16; 11], tables: Lent) -> u32 {
        let outcome = plain::begin(Header::of(header), tables);
        store(header, outcome).number
    }

    fn add(&mut self, header: &mut [u16; 11], tables: Lent, vector: &[f32], level: u8) -> u32 {
        let outcome = plain::add(Header::of(header), tables, vector, level);
        store(header, outcome).number
    }

    fn build(&mut self, header: &mut [u16; 11], tables: Lent, metric: u16) -> u32 {
        let outcome = plain::build(Header::of(header), tables, metric);
        store(header, outcome).number
    }

    fn mark(&mut self, header: &mut [u16; 11], tables: Lent, id: u16) -> u32 {
        let outcome = plain::mark(Header::of(header), tables, id);
        store(header, outcome).number
    }

    fn search(
        &mut self,
        header: &mut [u16; 11],
        tables: Lent,
        query: &[f32],
        k: usize,
        ids: &mut [u16],
        distances: &mut [f32],
    ) -> Searched {
        let outcome = plain::search(Header::of(header), tables, query, k, ids, distances);
        store(header, outcome)
    }

    fn search_records(
        &mut self,
        header: &mut [u16; 11],
        tables: Lent,
        query: &[f32],
        k: usize,
        records: &mut [Neighbor],
    ) -> Searched {
        let outcome = plain::search_records(Header::of(header), tables, query, k, records);
        store(header, outcome)
    }
}
