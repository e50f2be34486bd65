//! The six calls.

use crate::building::link_pending;
use crate::header::Header;
use crate::heap::Neighbor;
use crate::refusals;
use crate::search::found;
use crate::tables::Lent;

/// What a call hands back; the rest of its outcome stands in what was lent.
#[derive(Debug, Clone, Copy, PartialEq, Eq)]
pub struct Outcome {
    pub number: u32,
    pub header: Header,
    /// How many entries a search has written; 0 for every other call.
    pub found: usize,
}

/// Of the header only the first eight numbers are taken: dimension and parameters. The other
/// three are handed back as 0, refused or not.
pub fn begin(given: Header, tables: Lent) -> Outcome {
    let header = Header {
        metric: 0,
        added: 0,
        built: 0,
        ..given
    };
    let number = refusals::of_begin(&header, tables.view());
    if number == 0 {
        tables.vectors.fill(0.0);
        tables.levels.fill(0);
        tables.marks.fill(0);
        tables.links.fill(0);
    }
    outcome(number, header)
}

pub fn add(header: Header, tables: Lent, vector: &[f32], level: u8) -> Outcome {
    let number = refusals::of_add(&header, tables.view(), vector, level);
    if number != 0 {
        return outcome(number, header);
    }
    let id = header.added as usize;
    let first = id * vector.len();
    tables.vectors[first..first + vector.len()].copy_from_slice(vector);
    // Id 0 gets `max_level` whatever accepted level it came with.
    tables.levels[id] = if id == 0 {
        header.max_level as u8
    } else {
        level
    };
    let added = header.added + 1;
    outcome(0, Header { added, ..header })
}

pub fn build(header: Header, mut tables: Lent, metric: u16) -> Outcome {
    let number = refusals::of_build(&header, tables.view(), metric);
    if number != 0 {
        return outcome(number, header);
    }
    link_pending(&header, &mut tables, metric);
    let built = header.added;
    let header = Header {
        metric,
        built,
        ..header
    };
    outcome(0, header)
}

pub fn mark(header: Header, tables: Lent, id: u16) -> Outcome {
    let number = refusals::of_mark(&header, tables.view(), id);
    if number == 0 {
        tables.marks[id as usize] = 1;
    }
    outcome(number, header)
}

/// Writes the found entries at the front of both buffers; entries behind them stay.
pub fn search(
    header: Header,
    tables: Lent,
    query: &[f32],
    k: usize,
    ids: &mut [u16],
    distances: &mut [f32],
) -> Outcome {
    let room = ids.len().min(distances.len());
    let number = refusals::of_search(&header, tables.view(), query, k, room);
    if number != 0 {
        return outcome(number, header);
    }
    let answer = found(&header, tables.view(), query, k);
    for (at, one) in answer.iter().enumerate() {
        ids[at] = one.id;
        distances[at] = one.distance;
    }
    Outcome {
        number,
        header,
        found: answer.len(),
    }
}

/// The same answer as records.
pub fn search_records(
    header: Header,
    tables: Lent,
    query: &[f32],
    k: usize,
    records: &mut [Neighbor],
) -> Outcome {
    let number = refusals::of_search(&header, tables.view(), query, k, records.len());
    if number != 0 {
        return outcome(number, header);
    }
    let answer = found(&header, tables.view(), query, k);
    records[..answer.len()].copy_from_slice(&answer);
    Outcome {
        number,
        header,
        found: answer.len(),
    }
}

fn outcome(number: u32, header: Header) -> Outcome {
    Outcome {
        number,
        header,
        found: 0,
    }
}
