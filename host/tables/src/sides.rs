//! What a library is lent, all of it between guards, and how it is asked.

use crate::calls::Call;
use crate::guarded::{Cell, Guarded};
use crate::library::{Library, Searched};
use plain::{Header, Lent, Neighbor, Tables};

/// What one library is lent from call to call.
pub struct Side {
    pub header: Guarded<u16>,
    pub vectors: Guarded<f32>,
    pub levels: Guarded<u8>,
    pub marks: Guarded<u8>,
    pub links: Guarded<u16>,
}

impl Side {
    pub fn new(header: &Header, tables: &Tables) -> Side {
        Side {
            header: Guarded::new(&header.numbers()),
            vectors: Guarded::new(&tables.vectors),
            levels: Guarded::new(&tables.levels),
            marks: Guarded::new(&tables.marks),
            links: Guarded::new(&tables.links),
        }
    }

    pub fn header(&self) -> Header {
        let numbers = self.header.inside().try_into();
        Header::of(numbers.expect("a header has eleven numbers"))
    }

    fn lend(&mut self) -> (&mut [u16; 11], Lent<'_>) {
        let numbers = self.header.inside_mut().try_into();
        let lent = Lent {
            vectors: self.vectors.inside_mut(),
            levels: self.levels.inside_mut(),
            marks: self.marks.inside_mut(),
            links: self.links.inside_mut(),
        };
        (numbers.expect("a header has eleven numbers"), lent)
    }

    pub fn cells(&self) -> usize {
        let tables = self.vectors.inside().len() + self.links.inside().len();
        11 + tables + self.levels.inside().len() + self.marks.inside().len()
    }
}

/// What one library was lent for one call, and what it handed back.
pub struct Answer {
    pub searched: Searched,
    pub vector: Guarded<f32>,
    pub ids: Guarded<u16>,
    pub distances: Guarded<f32>,
    pub records: Guarded<Neighbor>,
}

impl Answer {
    /// Buffers for a call, full of something.
    fn blank(call: &Call) -> Answer {
        let none: &[f32] = &[];
        let (vector, lengths) = match call {
            Call::Add { vector, .. } => (&vector[..], [0; 3]),
            Call::Search {
                query,
                ids,
                distances,
                ..
            } => (&query[..], [*ids, *distances, 0]),
            Call::SearchRecords { query, records, .. } => (&query[..], [0, 0, *records]),
            _ => (none, [0; 3]),
        };
        Answer {
            searched: Searched {
                number: 0,
                found: 0,
            },
            vector: Guarded::new(vector),
            ids: filled(lengths[0]),
            distances: filled(lengths[1]),
            records: filled(lengths[2]),
        }
    }

    pub fn cells(&self) -> usize {
        let buffers = self.ids.inside().len() + self.distances.inside().len();
        self.vector.inside().len() + buffers + self.records.inside().len()
    }
}

/// Other values than the guards', each place with its own.
fn filled<T: Cell>(length: usize) -> Guarded<T> {
    let cells: Vec<T> = (0..length).map(|at| T::guard(at + 100)).collect();
    Guarded::new(&cells)
}

pub fn ask(library: &mut dyn Library, side: &mut Side, call: &Call) -> Answer {
    let mut answer = Answer::blank(call);
    let (header, tables) = side.lend();
    let vector = answer.vector.inside();
    let only = |number| Searched { number, found: 0 };
    answer.searched = match call {
        Call::Begin => only(library.begin(header, tables)),
        Call::Add { level, .. } => only(library.add(header, tables, vector, *level)),
        Call::Build { metric } => only(library.build(header, tables, *metric)),
        Call::Mark { id } => only(library.mark(header, tables, *id)),
        Call::Search { k, .. } => {
            let ids = answer.ids.inside_mut();
            let distances = answer.distances.inside_mut();
            library.search(header, tables, vector, *k, ids, distances)
        }
        Call::SearchRecords { k, .. } => {
            let records = answer.records.inside_mut();
            library.search_records(header, tables, vector, *k, records)
        }
    };
    answer
}
