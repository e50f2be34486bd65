//! The generator: repeatable, valid by 01, and alive on the oracle.

use oracle::Oracle;
use scenarios::families::{live, make, FAMILIES, FULL};
use scenarios::subject::{run, Answer};
use scenarios::validity::{check, STACK_BYTES};
use scenarios::{starred, Metric, Scenario, Step};

/// Seeds that the fixed list does not use.
const SEEDS: std::ops::Range<u64> = 10_000..10_040;

#[test]
fn the_same_seed_gives_the_same_scenario() {
    for family in &FAMILIES {
        assert_eq!(make(family, 7), make(family, 7));
        assert_ne!(make(family, 7), make(family, 8));
    }
}

#[test]
fn every_scenario_is_valid_and_runs() {
    for family in &FAMILIES {
        for seed in SEEDS {
            let scenario = make(family, seed);
            assert_eq!(check(&scenario), Ok(()), "{} {seed}", family.name);
            assert!(scenario.params.table_bytes() <= STACK_BYTES);
            passes(&scenario, &run::<Oracle>(&scenario));
        }
    }
}

#[test]
fn live_scenarios_are_valid_and_run() {
    for seed in 0..100 {
        let scenario = live(seed);
        assert_eq!(check(&scenario), Ok(()), "{seed}");
        passes(&scenario, &run::<Oracle>(&scenario));
    }
}

/// The live family: 4,096 ids.
#[test]
fn a_full_index_runs() {
    let scenario = make(&FULL, 1);
    assert_eq!(check(&scenario), Ok(()));
    assert!(scenario.params.capacity >= 4000);
    passes(&scenario, &run::<Oracle>(&scenario));
}

/// Rules R6, R8 and R9 of 01 after each build; order, marks and k of each answer.
fn passes(scenario: &Scenario, answers: &[Answer]) {
    let mut marked = Vec::new();
    for (step, answer) in scenario.steps.iter().zip(answers) {
        match (step, answer) {
            (Step::Mark { id }, _) => marked.push(*id),
            (_, Answer::Links(links)) => links_pass(scenario, links),
            (Step::Search { k, .. }, Answer::Found(found)) => {
                assert!(found.len() <= *k);
                assert!(found.iter().all(|f| !marked.contains(&f.0)));
                let order =
                    |pair: &[(usize, u32)]| f32::from_bits(pair[0].1) <= f32::from_bits(pair[1].1);
                assert!(found.windows(2).all(order));
            }
            _ => {}
        }
    }
}

fn links_pass(scenario: &Scenario, links: &[Vec<Vec<usize>>]) {
    for (id, lists) in links.iter().enumerate() {
        for (level, list) in lists.iter().enumerate() {
            let params = &scenario.params;
            let slots = if level == 0 {
                params.n_neighbor0
            } else {
                params.n_neighbor
            };
            assert!(list.len() <= slots);
            for (at, to) in list.iter().enumerate() {
                assert!(*to != id && *to < links.len() && links[*to].len() > level);
                assert!(!list[..at].contains(to));
            }
        }
    }
}

/// The check finds each refusal of 01 that a step can meet.
#[test]
fn the_check_refuses() {
    let refused = |step: Step, number: usize| {
        let mut scenario = starred::marked_profile();
        scenario.params.capacity = 5;
        scenario.steps.push(step);
        let at = scenario.steps.len() - 1;
        assert_eq!(
            check(&scenario),
            Err(format!("step {at} is refused with {number}"))
        );
    };
    let add = |vector: Vec<f32>, level| Step::Add { vector, level };
    let metric = Metric::Angular;
    refused(Step::Build { metric }, 4);
    let metric = Metric::Manhattan;
    refused(Step::Build { metric }, 5);
    refused(add(vec![1.0, 2.0], 0), 6);
    refused(add(vec![1.0], 1), 8);
    refused(add(vec![f32::NAN], 0), 9);
    refused(starred::search(f32::INFINITY, 1), 9);
    refused(starred::search(1.0, 513), 10);
    refused(Step::Mark { id: 4 }, 13);
    refused(Step::Mark { id: 3 }, 14);
}

#[test]
fn the_check_refuses_a_full_index_and_marks_without_deletion() {
    let mut scenario = starred::profiles();
    assert_eq!(check(&scenario), Ok(()));
    scenario.steps.push(Step::Mark { id: 0 });
    assert_eq!(
        check(&scenario),
        Err("step 9 is refused with 12".to_string())
    );
    scenario.steps[9] = starred::add(1.0);
    assert_eq!(
        check(&scenario),
        Err("step 9 is refused with 7".to_string())
    );
    scenario.params.capacity = 4097;
    assert_eq!(
        check(&scenario),
        Err("4097 is not from 1 to 4096".to_string())
    );
}
