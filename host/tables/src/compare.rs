//! Asks two libraries the same, each over its own copies, and compares after every call: number,
//! header, found count, every lent cell by its bits, and the guards around all that was lent.

use crate::calls::{random_call, Call};
use crate::damaged::damaged;
use crate::guarded::{Cell, Guarded};
use crate::library::Library;
use crate::passing::random_passing;
use crate::sides::{ask, Answer, Side};
use scenarios::random::Random;
use std::collections::BTreeMap;

#[derive(Debug, Default)]
pub struct Report {
    pub rounds: usize,
    /// How often each call was answered with each number by the first library.
    pub numbers: BTreeMap<(&'static str, u32), usize>,
    /// Cells of tables and buffers that were compared.
    pub cells: usize,
    /// Entries that searches listed.
    pub listed: usize,
    /// The first; nothing is asked after it.
    pub difference: Option<Difference>,
}

/// `compare` with this seed and one round shows it again.
#[derive(Debug)]
pub struct Difference {
    pub seed: u64,
    /// The call within the round, from 0.
    pub call: usize,
    pub asked: String,
    pub what: String,
}

impl Report {
    pub fn calls(&self) -> usize {
        self.numbers.values().sum()
    }
}

/// Round r begins with the seed `seed` + r.
pub fn compare(a: &mut dyn Library, b: &mut dyn Library, seed: u64, rounds: usize) -> Report {
    let mut report = Report::default();
    for round in 0..rounds as u64 {
        report.rounds += 1;
        run_round(a, b, seed.wrapping_add(round), &mut report);
        if report.difference.is_some() {
            break;
        }
    }
    report
}

/// Calls on tables that pass or that are damaged, or a longer run from a beginning.
fn run_round(a: &mut dyn Library, b: &mut dyn Library, seed: u64, report: &mut Report) {
    let mut random = Random::new(seed);
    let kind = random.below(10);
    let (header, tables) = match kind {
        0..=4 => random_passing(&mut random),
        _ => damaged(&mut random),
    };
    let calls = match kind {
        9 => random.between((10, 30)),
        _ => random.between((1, 4)),
    };
    let mut first = Side::new(&header, &tables);
    let mut second = Side::new(&header, &tables);
    for at in 0..calls {
        let call = match (kind, at) {
            (9, 0) => Call::Begin,
            _ => random_call(&first.header(), &mut random),
        };
        let answers = (ask(a, &mut first, &call), ask(b, &mut second, &call));
        let key = (call.name(), answers.0.searched.number);
        *report.numbers.entry(key).or_insert(0) += 1;
        report.cells += first.cells() + answers.0.cells();
        report.listed += answers.0.searched.found;
        if let Some(what) = difference((&first, &answers.0), (&second, &answers.1)) {
            report.difference = Some(Difference {
                seed,
                call: at,
                asked: format!("{call:?} on {:?}", first.header()),
                what,
            });
            return;
        }
    }
}

fn difference(a: (&Side, &Answer), b: (&Side, &Answer)) -> Option<String> {
    if a.1.searched != b.1.searched {
        return Some(format!("{:?} and {:?}", a.1.searched, b.1.searched));
    }
    let checks = [
        cells("header", &a.0.header, &b.0.header),
        cells("vectors", &a.0.vectors, &b.0.vectors),
        cells("levels", &a.0.levels, &b.0.levels),
        cells("marks", &a.0.marks, &b.0.marks),
        cells("links", &a.0.links, &b.0.links),
        cells("the vector given", &a.1.vector, &b.1.vector),
        cells("ids", &a.1.ids, &b.1.ids),
        cells("distances", &a.1.distances, &b.1.distances),
        cells("records", &a.1.records, &b.1.records),
    ];
    checks.into_iter().flatten().next()
}

fn cells<T: Cell>(name: &str, a: &Guarded<T>, b: &Guarded<T>) -> Option<String> {
    for (which, buffer) in [("first", a), ("second", b)] {
        if !buffer.guards_hold() {
            return Some(format!("the {which} wrote outside {name}"));
        }
    }
    let at = a.first_difference(b)?;
    let bits = (a.inside()[at].bits(), b.inside()[at].bits());
    Some(format!(
        "{name} [{at}]: bits {:#x} and {:#x}",
        bits.0, bits.1
    ))
}
