//! Holds a scenario to `01-scope.md`: every parameter in its bounds, every call done.

use crate::{Metric, Params, Scenario, Step};

/// The most a program may keep on its stack for the four tables.
pub const STACK_BYTES: usize = 3_000_000;

/// What 01's header and marks would hold while a scenario runs.
struct State {
    params: Params,
    metric: Metric,
    added: usize,
    built: usize,
    marked: Vec<bool>,
}

/// The first call that would be refused, with 01's number for it.
pub fn check(scenario: &Scenario) -> Result<(), String> {
    check_params(&scenario.params)?;
    let mut state = State {
        params: scenario.params,
        metric: Metric::Unknown,
        added: 0,
        built: 0,
        marked: vec![false; scenario.params.capacity],
    };
    for (at, step) in scenario.steps.iter().enumerate() {
        let number = state.refusal(step);
        if number != 0 {
            return Err(format!("step {at} is refused with {number}"));
        }
        state.take(step);
    }
    Ok(())
}

fn check_params(params: &Params) -> Result<(), String> {
    let bounds = [
        (params.dimension, 1, 256),
        (params.capacity, 1, 4096),
        (params.n_neighbor, 1, 64),
        (params.n_neighbor0, 1, 64),
        (params.max_level, 0, 20),
        (params.ef_build, 1, 512),
        (params.ef_search, 1, 512),
    ];
    match bounds.iter().find(|b| b.0 < b.1 || b.0 > b.2) {
        Some(bound) => Err(format!(
            "{} is not from {} to {}",
            bound.0, bound.1, bound.2
        )),
        None => Ok(()),
    }
}

impl State {
    /// The lowest of 01's numbers that applies, 0 for a done call.
    fn refusal(&self, step: &Step) -> usize {
        match step {
            Step::Add { vector, level } => self.refusal_of_add(vector, *level),
            Step::Build { metric } => self.refusal_of_build(*metric),
            Step::Mark { id } => self.refusal_of_mark(*id),
            Step::Search { query, k } => match self.refusal_of_vector(query) {
                0 if *k > 512 => 10,
                number => number,
            },
        }
    }

    fn refusal_of_vector(&self, vector: &[f32]) -> usize {
        if vector.len() != self.params.dimension {
            6
        } else if vector.iter().any(|c| !c.is_finite()) {
            9
        } else {
            0
        }
    }

    fn refusal_of_add(&self, vector: &[f32], level: usize) -> usize {
        if vector.len() != self.params.dimension {
            6
        } else if self.added == self.params.capacity {
            7
        } else if level > self.params.max_level {
            8
        } else {
            self.refusal_of_vector(vector)
        }
    }

    fn refusal_of_build(&self, metric: Metric) -> usize {
        match metric {
            Metric::Manhattan | Metric::DotProduct | Metric::Euclidean => {
                if self.built > 0 && metric != self.metric {
                    5
                } else {
                    0
                }
            }
            _ => 4,
        }
    }

    fn refusal_of_mark(&self, id: usize) -> usize {
        if !self.params.has_deletion {
            12
        } else if id >= self.built {
            13
        } else if self.marked[id] {
            14
        } else {
            0
        }
    }

    fn take(&mut self, step: &Step) {
        match step {
            Step::Add { .. } => self.added += 1,
            Step::Build { metric } => {
                self.metric = *metric;
                self.built = self.added;
            }
            Step::Mark { id } => self.marked[*id] = true,
            Step::Search { .. } => {}
        }
    }
}
