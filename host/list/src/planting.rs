//! Runs scenarios on the oracle with one error planted.

use crate::reading::Entry;
use planted::planted::{switch, Planted};
use planted::HNSWParams;
use scenarios::subject::{run, Answer, Subject};
use scenarios::{Metric, Params, Scenario};
use std::panic::{catch_unwind, AssertUnwindSafe};

/// The package `planted` under the trait of `scenarios`: the same calls as the true oracle.
pub struct Wrong(pub planted::Oracle);

impl Subject for Wrong {
    fn begin(params: &Params) -> Wrong {
        let mut given = HNSWParams::default()
            .max_item(params.capacity)
            .n_neighbor(params.n_neighbor)
            .n_neighbor0(params.n_neighbor0)
            .ef_build(params.ef_build)
            .ef_search(params.ef_search)
            .has_deletion(params.has_deletion);
        given.max_level = params.max_level;
        Wrong(planted::Oracle::new(params.dimension, &given))
    }

    fn add(&mut self, vector: &[f32], level: usize) {
        self.0.add(vector, level)
    }

    fn build(&mut self, metric: Metric) {
        self.0.build(match metric {
            Metric::Unknown => planted::Metric::Unknown,
            Metric::Manhattan => planted::Metric::Manhattan,
            Metric::DotProduct => planted::Metric::DotProduct,
            Metric::Euclidean => planted::Metric::Euclidean,
            Metric::CosineSimilarity => planted::Metric::CosineSimilarity,
            Metric::Angular => planted::Metric::Angular,
        })
    }

    fn mark(&mut self, id: usize) {
        self.0.mark(id)
    }

    fn search(&mut self, query: &[f32], k: usize) -> Vec<(usize, f32)> {
        self.0.search(query, k)
    }

    fn built(&self) -> usize {
        self.0.built()
    }

    fn level(&self, id: usize) -> usize {
        self.0.level(id)
    }

    fn links(&self, id: usize, level: usize) -> Vec<usize> {
        self.0.links(id, level)
    }
}

/// The answers with one error planted; none if it makes the oracle panic.
pub fn run_with(error: Planted, scenario: &Scenario) -> Option<Vec<Answer>> {
    switch(error);
    let answers = catch_unwind(AssertUnwindSafe(|| run::<Wrong>(scenario))).ok();
    switch(Planted::None);
    answers
}

/// In how many entries the answers with the error differ from those of the list.
pub fn told_apart(error: Planted, entries: &[Entry]) -> usize {
    let differs =
        |entry: &&Entry| run_with(error, &entry.scenario).as_ref() != Some(&entry.answers);
    entries.iter().filter(differs).count()
}
