//! 01's table of answer numbers once more, number by number: when each applies, and which of them
//! a call tests. With every part as in 01 it is right; with one part changed it is mistaken.

use plain::header::BOUNDS;
use plain::rules::{Rule, RULES};
use plain::tables::lengths;
use plain::{Header, View};
use tables::Call;

pub struct Refusing {
    pub bounds: [(u16, u16); 8],
    pub rules: Vec<Rule>,
    /// The numbers in the order in which they are tested. One that is not here is not tested.
    pub order: Vec<u32>,
}

impl Default for Refusing {
    fn default() -> Refusing {
        Refusing {
            bounds: BOUNDS,
            rules: RULES.to_vec(),
            order: (1..=14).collect(),
        }
    }
}

/// 1 and 2 are tested by every call; 3 by all but beginning; 4 and 5 by build; 6 to 9 by adding;
/// 6, 9, 10, 11 by searching; 12 to 14 by marking.
fn tested(call: &Call) -> &'static [u32] {
    match call {
        Call::Begin => &[1, 2],
        Call::Add { .. } => &[1, 2, 3, 6, 7, 8, 9],
        Call::Build { .. } => &[1, 2, 3, 4, 5],
        Call::Mark { .. } => &[1, 2, 3, 12, 13, 14],
        Call::Search { .. } | Call::SearchRecords { .. } => &[1, 2, 3, 6, 9, 10, 11],
    }
}

impl Refusing {
    pub fn number(&self, header: &Header, tables: View, call: &Call) -> u32 {
        let tested = tested(call);
        let applies =
            |number: &&u32| tested.contains(number) && self.applies(**number, header, tables, call);
        self.order.iter().find(applies).copied().unwrap_or(0)
    }

    fn applies(&self, number: u32, header: &Header, tables: View, call: &Call) -> bool {
        match number {
            1 => !header.within(&self.bounds),
            2 => tables.lengths() != lengths(header),
            // A rule is asked only of tables of the right lengths.
            3 => {
                tables.lengths() == lengths(header)
                    && header.within(&self.bounds)
                    && self.rules.iter().any(|rule| rule(header, tables).is_some())
            }
            _ => call_applies(number, header, tables, call),
        }
    }
}

fn call_applies(number: u32, header: &Header, tables: View, call: &Call) -> bool {
    match (number, call) {
        (4, Call::Build { metric }) => ![1, 2, 3].contains(metric),
        (5, Call::Build { metric }) => header.built > 0 && *metric != header.metric,
        (6, _) => vector(call).len() != header.dimension as usize,
        (7, _) => header.added == header.capacity,
        (8, Call::Add { level, .. }) => *level as u16 > header.max_level,
        (9, _) => vector(call).iter().any(|c| c.is_nan() || c.is_infinite()),
        (10, _) => asked(call).0 > 512,
        (11, _) => asked(call).1 < asked(call).0,
        (12, _) => header.has_deletion != 1,
        (13, Call::Mark { id }) => *id >= header.built,
        (14, Call::Mark { id }) => tables.marks.get(*id as usize).is_some_and(|m| *m == 1),
        _ => unreachable!("{number} is not tested by {}", call.name()),
    }
}

fn vector(call: &Call) -> &[f32] {
    match call {
        Call::Add { vector, .. } => vector,
        Call::Search { query, .. } | Call::SearchRecords { query, .. } => query,
        _ => &[],
    }
}

/// k and the room for an answer.
fn asked(call: &Call) -> (usize, usize) {
    match call {
        Call::Search {
            k, ids, distances, ..
        } => (*k, *ids.min(distances)),
        Call::SearchRecords { k, records, .. } => (*k, *records),
        _ => (0, 0),
    }
}
