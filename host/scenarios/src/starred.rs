//! The indexes of 01's "Profiles on a line", as scenarios.

use crate::{Metric, Params, Scenario, Step};

/// Euclidean, one dimension, `max_level` 0.
pub fn line(n_neighbor0: usize, has_deletion: bool, places: &[f32]) -> Scenario {
    let params = Params {
        dimension: 1,
        capacity: places.len(),
        n_neighbor: 1,
        n_neighbor0,
        max_level: 0,
        ef_build: 4,
        ef_search: 1,
        has_deletion,
    };
    let mut steps: Vec<Step> = places.iter().map(|p| add(*p)).collect();
    steps.push(build());
    Scenario { params, steps }
}

/// Ids 0 to 3 at 0, 10, 4, 5, and the queries of 01.
pub fn profiles() -> Scenario {
    let mut scenario = line(2, false, &[0.0, 10.0, 4.0, 5.0]);
    for k in [1, 0, 4, 9] {
        scenario.steps.push(search(6.0, k));
    }
    scenario
}

/// The same with id 3 marked.
pub fn marked_profile() -> Scenario {
    let mut scenario = line(2, true, &[0.0, 10.0, 4.0, 5.0]);
    scenario.steps.push(Step::Mark { id: 3 });
    scenario.steps.push(search(6.0, 1));
    scenario
}

/// Ids at 0, 100, 101 with the middle one marked: a short answer that lacks a reachable id.
pub fn marked_bridge() -> Scenario {
    let mut scenario = line(2, true, &[0.0, 100.0, 101.0]);
    scenario.steps.push(Step::Mark { id: 1 });
    scenario.steps.push(search(0.0, 3));
    scenario.steps.push(search(101.0, 3));
    scenario
}

/// All of them, and the line with the other two sizes that 01 chooses with.
pub fn all() -> Vec<Scenario> {
    vec![
        profiles(),
        line(3, false, &[0.0, 10.0, 4.0, 5.0]),
        line(4, false, &[0.0, 10.0, 4.0, 5.0]),
        marked_profile(),
        marked_bridge(),
    ]
}

pub fn add(place: f32) -> Step {
    Step::Add {
        vector: vec![place],
        level: 0,
    }
}

pub fn build() -> Step {
    Step::Build {
        metric: Metric::Euclidean,
    }
}

pub fn search(place: f32, k: usize) -> Step {
    Step::Search {
        query: vec![place],
        k,
    }
}
