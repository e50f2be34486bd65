//! `smallest` prints, for each planted error, the first index on a line that shows it: fewest
//! ids first, then lowest `max_level`, then smallest numbers. docs/DIFFERENCES.md quotes them.

use list::planting::run_with;
use planted::planted::Planted;
use scenarios::subject::Answer;
use scenarios::{Metric, Params, Scenario, Step};

/// Ids stand at whole places from 0 to 4.
const PLACES: usize = 5;

fn main() {
    for error in Planted::ERRORS {
        println!("{}:", error.words());
        match (1..=5).find_map(|ids| first_with(error, ids)) {
            Some(scenario) => show(error, &scenario),
            None => println!("  none found"),
        }
    }
}

/// Errors that lie in the search, or may show there with fewer ids than in the links.
const SEARCHED: [Planted; 6] = [
    Planted::DescentMended,
    Planted::TieById,
    Planted::OtherChild,
    Planted::AnswerSorted,
    Planted::BoundAtLeast,
    Planted::MarkedEntryKept,
];

/// Errors that show only where an id is marked.
const MARKED: [Planted; 3] = [
    Planted::SeenCleared,
    Planted::MarkedEntryKept,
    Planted::SecondPush,
];

fn first_with(error: Planted, ids: usize) -> Option<Scenario> {
    let parameters = (0..=1).flat_map(|max_level| {
        (0..2 * 3 * 3).map(move |rest| Params {
            dimension: 1,
            capacity: ids,
            n_neighbor0: 1 + rest % 3,
            ef_build: 1 + rest / 3 % 3,
            n_neighbor: 1 + rest / 9,
            max_level,
            ef_search: 1,
            has_deletion: MARKED.contains(&error),
        })
    });
    parameters
        .into_iter()
        .find_map(|params| first_line(error, params))
}

/// All levels of the ids, all their places, all ids to mark.
fn first_line(error: Planted, params: Params) -> Option<Scenario> {
    let ids = params.capacity as u32;
    let level_codes = (params.max_level + 1).pow(ids - 1);
    let marks = if params.has_deletion {
        ids.max(2) as usize - 1
    } else {
        1
    };
    for level_code in 0..level_codes {
        for place_code in 0..PLACES.pow(ids) {
            for marked in 0..marks {
                let mut scenario =
                    with_builds(params, adds(params, level_code, place_code), marked);
                if SEARCHED.contains(&error) {
                    scenario.steps.extend(searches());
                }
                if run_with(error, &scenario) != run_with(Planted::None, &scenario) {
                    return Some(scenario);
                }
            }
        }
    }
    None
}

/// The digits of two numbers are the levels of the ids from 1 on and the places of all ids.
fn adds(params: Params, level_code: usize, place_code: usize) -> Vec<Step> {
    let levels = params.max_level + 1;
    let add = |id: u32| Step::Add {
        vector: vec![(place_code / PLACES.pow(id) % PLACES) as f32],
        level: match id {
            0 => params.max_level,
            _ => level_code / levels.pow(id - 1) % levels,
        },
    };
    (0..params.capacity as u32).map(add).collect()
}

/// One build. Where marks are asked for: all ids but the last are built before, and one is marked.
fn with_builds(params: Params, mut steps: Vec<Step>, marked: usize) -> Scenario {
    let build = Step::Build {
        metric: Metric::Euclidean,
    };
    if params.has_deletion {
        let first = params.capacity.max(2) - 1;
        steps.insert(first, Step::Mark { id: marked });
        steps.insert(first, build.clone());
    }
    steps.push(build);
    Scenario { params, steps }
}

/// From each place with each k from 1 to 3.
fn searches() -> impl Iterator<Item = Step> {
    (0..PLACES * 3).map(|code| Step::Search {
        query: vec![(code % PLACES) as f32],
        k: 1 + code / PLACES,
    })
}

/// The parameters, the calls up to the last build, and the first search that differs.
fn show(error: Planted, scenario: &Scenario) {
    println!("  {:?}", scenario.params);
    let right = run_with(Planted::None, scenario).unwrap();
    let wrong = run_with(error, scenario).unwrap_or_default();
    let mut shown = false;
    for (at, step) in scenario.steps.iter().enumerate() {
        let differs = wrong.get(at) != Some(&right[at]);
        if matches!(step, Step::Search { .. }) && (!differs || shown) {
            continue;
        }
        shown |= matches!(step, Step::Search { .. });
        println!("  {step:?}");
        if right[at] != Answer::Done {
            println!("    true:  {:?}", right[at]);
        }
        if differs {
            println!("    wrong: {:?}", wrong.get(at));
        }
    }
}
