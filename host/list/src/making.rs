//! Makes the list: which scenarios stand in it, and the oracle's answers to them.

use crate::writing;
use oracle::Oracle;
use scenarios::families::{make, FAMILIES};
use scenarios::subject::{run, Answer};
use scenarios::{starred, Scenario};

/// The starred indexes of 01 first; then each family in turn, from seeds that follow one another.
pub fn scenarios() -> Vec<Scenario> {
    let mut all = starred::all();
    let mut seed = 0;
    for family in &FAMILIES {
        for _ in 0..family.listed {
            seed += 1;
            all.push(make(family, seed));
        }
    }
    all
}

pub fn entries() -> Vec<(Scenario, Vec<Answer>)> {
    scenarios()
        .into_iter()
        .map(|scenario| {
            let answers = run::<Oracle>(&scenario);
            (scenario, answers)
        })
        .collect()
}

/// The bytes of `oracle.list`.
pub fn bytes() -> Vec<u8> {
    writing::list(&entries())
}
