//! What runs a scenario: the oracle, the oracle with an error planted, the port.

use crate::{Metric, Params, Scenario, Step};
use oracle::{HNSWParams, Oracle};

/// The calls of `01-scope.md`, for calls that are done.
pub trait Subject {
    fn begin(params: &Params) -> Self;
    fn add(&mut self, vector: &[f32], level: usize);
    fn build(&mut self, metric: Metric);
    fn mark(&mut self, id: usize);
    fn search(&mut self, query: &[f32], k: usize) -> Vec<(usize, f32)>;
    fn built(&self) -> usize;
    fn level(&self, id: usize) -> usize;
    fn links(&self, id: usize, level: usize) -> Vec<usize>;
}

/// What is compared after a step. Distances are compared by their bits.
#[derive(Debug, Clone, PartialEq, Eq)]
pub enum Answer {
    /// Adding and marking.
    Done,
    /// Building: for each built id, for each level from 0 to its own, its list.
    Links(Vec<Vec<Vec<usize>>>),
    /// Searching: ids and distance bits, nearest first.
    Found(Vec<(usize, u32)>),
}

/// Runs a scenario from its beginning; one answer for each step.
pub fn run<S: Subject>(scenario: &Scenario) -> Vec<Answer> {
    let mut subject = S::begin(&scenario.params);
    scenario
        .steps
        .iter()
        .map(|step| run_step(&mut subject, step))
        .collect()
}

fn run_step<S: Subject>(subject: &mut S, step: &Step) -> Answer {
    match step {
        Step::Add { vector, level } => {
            subject.add(vector, *level);
            Answer::Done
        }
        Step::Build { metric } => {
            subject.build(*metric);
            Answer::Links(all_links(subject))
        }
        Step::Mark { id } => {
            subject.mark(*id);
            Answer::Done
        }
        Step::Search { query, k } => {
            let found = subject.search(query, *k);
            Answer::Found(found.iter().map(|f| (f.0, f.1.to_bits())).collect())
        }
    }
}

fn all_links<S: Subject>(subject: &S) -> Vec<Vec<Vec<usize>>> {
    let lists_of = |id| {
        (0..=subject.level(id))
            .map(|level| subject.links(id, level))
            .collect()
    };
    (0..subject.built()).map(lists_of).collect()
}

impl Subject for Oracle {
    fn begin(params: &Params) -> Oracle {
        let mut given = HNSWParams::default()
            .max_item(params.capacity)
            .n_neighbor(params.n_neighbor)
            .n_neighbor0(params.n_neighbor0)
            .ef_build(params.ef_build)
            .ef_search(params.ef_search)
            .has_deletion(params.has_deletion);
        // hora has no setter for this one.
        given.max_level = params.max_level;
        Oracle::new(params.dimension, &given)
    }

    fn add(&mut self, vector: &[f32], level: usize) {
        Oracle::add(self, vector, level)
    }

    fn build(&mut self, metric: Metric) {
        Oracle::build(self, metric)
    }

    fn mark(&mut self, id: usize) {
        Oracle::mark(self, id)
    }

    fn search(&mut self, query: &[f32], k: usize) -> Vec<(usize, f32)> {
        Oracle::search(self, query, k)
    }

    fn built(&self) -> usize {
        Oracle::built(self)
    }

    fn level(&self, id: usize) -> usize {
        Oracle::level(self, id)
    }

    fn links(&self, id: usize, level: usize) -> Vec<usize> {
        Oracle::links(self, id, level)
    }
}
