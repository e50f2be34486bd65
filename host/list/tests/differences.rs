//! The smallest input of each difference that docs/DIFFERENCES.md names, run on the oracle; the
//! other side, where it can be run, is the oracle with one switch of the package `planted` on.

use list::planting::run_with;
use oracle::core::ann_index::ANNIndex;
use oracle::core::metrics::metric;
use oracle::core::node::Node;
use oracle::index::hnsw_idx::HNSWIndex;
use oracle::{HNSWParams, Metric, Oracle};
use planted::planted::{switch, Planted};
use scenarios::families::{make, FAMILIES};
use scenarios::subject::{run, Answer};
use scenarios::{Params, Scenario, Step};
use std::panic::{catch_unwind, AssertUnwindSafe};

/// One dimension, everything as small as it can be.
const LEAST: Params = Params {
    dimension: 1,
    capacity: 8,
    n_neighbor: 1,
    n_neighbor0: 1,
    max_level: 0,
    ef_build: 1,
    ef_search: 1,
    has_deletion: false,
};

const BUILD: Step = Step::Build {
    metric: Metric::Euclidean,
};

fn add(place: f32, level: usize) -> Step {
    let vector = vec![place];
    Step::Add { vector, level }
}

fn mark(id: usize) -> Step {
    Step::Mark { id }
}

fn search(place: f32, k: usize) -> Step {
    let query = vec![place];
    Step::Search { query, k }
}

/// The answers of the oracle, and those with a switch on.
fn both(params: Params, steps: &[Step], other: Planted) -> (Vec<Answer>, Vec<Answer>) {
    let steps = steps.to_vec();
    let scenario = Scenario { params, steps };
    (
        run::<Oracle>(&scenario),
        run_with(other, &scenario).unwrap(),
    )
}

/// The lists after the last build: for each id, for each of its levels.
fn links(answers: &[Answer]) -> Vec<Vec<Vec<usize>>> {
    let links = |answer: &Answer| match answer {
        Answer::Links(links) => Some(links.clone()),
        _ => None,
    };
    answers.iter().rev().find_map(links).unwrap()
}

/// The level-0 lists after the last build.
fn lists(answers: &[Answer]) -> Vec<Vec<usize>> {
    links(answers)
        .into_iter()
        .map(|mut lists| lists.remove(0))
        .collect()
}

/// The ids of the last search.
fn found(answers: &[Answer]) -> Vec<usize> {
    match answers.last() {
        Some(Answer::Found(found)) => found.iter().map(|f| f.0).collect(),
        _ => panic!("the last step is no search"),
    }
}

fn panics<T>(call: impl FnOnce() -> T) -> bool {
    catch_unwind(AssertUnwindSafe(call)).is_err()
}

/// hora's index itself, for calls that `Oracle` makes only when they are done.
fn hora(params: &HNSWParams<f32>) -> HNSWIndex<f32, usize> {
    HNSWIndex::new(1, params)
}

// The Rust from the paper.

#[test]
fn id_0_gets_max_level() {
    let params = Params {
        max_level: 1,
        ..LEAST
    };
    let (ours, _) = both(params, &[add(0.0, 0), add(0.0, 1), BUILD], Planted::None);
    // In the paper id 0 keeps its level 0, and id 1 becomes the entry point.
    assert_eq!(links(&ours), [[[1], [1]], [[0], [0]]]);
}

#[test]
fn the_search_does_not_descend() {
    let params = Params {
        max_level: 1,
        ..LEAST
    };
    let steps = [add(1.0, 1), add(0.0, 1), add(0.0, 0), BUILD, search(0.0, 3)];
    let (ours, paper) = both(params, &steps, Planted::DescentMended);
    assert_eq!(found(&ours), [2, 1, 0]);
    assert_eq!(found(&paper), [2, 1]);
}

#[test]
fn the_seen_set_is_not_cleared() {
    let params = Params {
        max_level: 1,
        has_deletion: true,
        ..LEAST
    };
    let first = [add(1.0, 1), add(0.0, 1), add(0.0, 0), BUILD];
    let second = [mark(1), add(0.0, 1), BUILD];
    let (ours, paper) = both(
        params,
        &[&first[..], &second[..]].concat(),
        Planted::SeenCleared,
    );
    assert_eq!(links(&ours)[3], [[0], [0]]);
    assert_eq!(links(&paper)[3], [[2], [0]]);
}

/// Without marks the seen set decides nothing: an id seen above and not kept is no nearer than
/// the farthest kept one, so it would not be kept below either.
#[test]
fn clearing_the_seen_set_shows_only_with_marks() {
    let mut compared = 0;
    for family in &FAMILIES {
        for seed in 20_000..20_020 {
            let mut scenario = make(family, seed);
            scenario
                .steps
                .retain(|step| !matches!(step, Step::Mark { .. }));
            let cleared = run_with(Planted::SeenCleared, &scenario);
            assert_eq!(cleared, Some(run::<Oracle>(&scenario)));
            compared += (scenario.params.max_level > 0) as usize;
        }
    }
    assert!(compared > 100);
}

#[test]
fn a_short_list_is_kept_whole() {
    let params = Params {
        n_neighbor0: 3,
        ef_build: 2,
        ..LEAST
    };
    let steps = [add(1.0, 0), add(1.0, 0), add(0.0, 0), BUILD];
    let (ours, paper) = both(params, &steps, Planted::ShortListChosen);
    assert_eq!(lists(&ours), [vec![1, 2], vec![0, 2], vec![1, 0]]);
    assert_eq!(lists(&paper), [vec![1], vec![0, 2], vec![1]]);
}

#[test]
fn an_equal_distance_is_kept() {
    let params = Params {
        n_neighbor0: 2,
        ef_build: 2,
        ..LEAST
    };
    let steps = [add(0.0, 0), add(0.0, 0), add(0.0, 0), BUILD];
    let (ours, paper) = both(params, &steps, Planted::DroppedOnEqual);
    assert_eq!(lists(&ours), [vec![1, 2], vec![0, 2], vec![1, 0]]);
    assert_eq!(lists(&paper), [vec![1], vec![0, 2], vec![1]]);
}

#[test]
fn level_0_takes_n_neighbor0_links_at_once() {
    let params = Params {
        n_neighbor: 1,
        n_neighbor0: 2,
        ef_build: 2,
        ..LEAST
    };
    let steps = [add(0.0, 0), add(0.0, 0), add(0.0, 0), BUILD];
    let (ours, _) = both(params, &steps, Planted::None);
    // In the paper a new id takes M links on every level: here n_neighbor, 1.
    assert_eq!(lists(&ours)[2], [1, 0]);
}

#[test]
fn the_width_is_at_least_k() {
    let steps = [add(0.0, 0), add(0.0, 0), BUILD, search(0.0, 2)];
    let (ours, _) = both(LEAST, &steps, Planted::None);
    // In the paper a walk of width ef, here 1, lists at most ef ids.
    assert_eq!(found(&ours), [1, 0]);
}

// Odd in the Rust, and kept.

#[test]
fn a_marked_id_is_linked_to_only_as_an_entry() {
    let params = Params {
        n_neighbor0: 2,
        ef_build: 2,
        has_deletion: true,
        ..LEAST
    };
    let marked = |id| {
        [
            add(0.0, 0),
            add(0.0, 0),
            BUILD,
            mark(id),
            add(0.0, 0),
            BUILD,
        ]
    };
    let (entry, _) = both(params, &marked(0), Planted::None);
    assert_eq!(lists(&entry)[2], [1, 0]);
    let (other, _) = both(params, &marked(1), Planted::None);
    assert_eq!(lists(&other)[2], [0]);
}

// We from the Rust.

#[test]
fn the_second_push() {
    let params = Params {
        n_neighbor0: 2,
        ef_build: 2,
        has_deletion: true,
        ..LEAST
    };
    let steps = [add(0.0, 0), BUILD, mark(0), add(0.0, 0), BUILD];
    let (ours, hora) = both(params, &steps, Planted::SecondPush);
    assert_eq!(lists(&ours), [[1], [0]]);
    assert_eq!(lists(&hora), [[1, 1], [0, 0]]);
}

/// The same with n_neighbor0 3 and id 1 at 3.
#[test]
fn the_second_push_into_a_short_list() {
    let params = Params {
        n_neighbor0: 3,
        ef_build: 2,
        has_deletion: true,
        ..LEAST
    };
    let steps = [add(0.0, 0), BUILD, mark(0), add(3.0, 0), BUILD];
    let (ours, hora) = both(params, &steps, Planted::SecondPush);
    assert_eq!(lists(&ours), [[1], [0]]);
    assert_eq!(lists(&hora), [[1, 1], [0, 0]]);
}

#[test]
fn delete_id_takes_the_constructed_count() {
    let mut index = hora(&HNSWParams::default().has_deletion(true));
    assert_eq!(index.delete_id(1), Err("Invalid delete id"));
    assert_eq!(index.delete_id(0), Ok(()));
    // The id is then added, built, and never listed.
    index.add(&[0.0], 0).unwrap();
    index.build(Metric::Euclidean).unwrap();
    assert_eq!(index.search(&[0.0], 1), []);
}

#[test]
fn delete_id_without_has_deletion() {
    let mut index = hora(&HNSWParams::default());
    index.add(&[0.0], 0).unwrap();
    index.build(Metric::Euclidean).unwrap();
    assert_eq!(index.delete_id(0), Ok(()));
    assert_eq!(index.delete_id(0), Ok(()));
    assert_eq!(index.search(&[0.0], 1), [0]);
}

#[test]
fn delete_id_twice() {
    let mut index = hora(&HNSWParams::default().has_deletion(true));
    index.add(&[0.0], 0).unwrap();
    index.build(Metric::Euclidean).unwrap();
    assert_eq!(index.delete_id(0), Ok(()));
    assert_eq!(index.delete_id(0), Err("id has deleted"));
}

#[test]
fn an_unknown_metric_panics_at_the_first_distance() {
    let mut index = hora(&HNSWParams::default());
    assert_eq!(index.build(Metric::Unknown), Ok(()));
    index.add(&[0.0], 0).unwrap();
    assert_eq!(index.build(Metric::Unknown), Ok(()));
    assert!(panics(|| index.search(&[0.0], 1)));
    index.add(&[0.0], 1).unwrap();
    assert!(panics(|| index.build(Metric::Unknown)));
}

#[test]
fn the_metric_may_change() {
    let mut index = hora(&HNSWParams::default());
    index.add(&[0.0], 0).unwrap();
    let mut distance = |metric| {
        index.build(metric).unwrap();
        index.search_nodes(&[2.0], 1)[0].1
    };
    assert_eq!(distance(Metric::Euclidean), 4.0);
    assert_eq!(distance(Metric::Manhattan), 2.0);
}

#[test]
fn a_vector_that_is_not_finite_panics() {
    let mut index = hora(&HNSWParams::default());
    assert!(panics(|| index.add(&[f32::NAN], 0)));
    assert!(panics(|| index.add(&[f32::INFINITY], 0)));
    assert!(panics(|| index.search(&[f32::NAN], 1)));
}

#[test]
fn a_vector_of_another_length() {
    let mut index = hora(&HNSWParams::default());
    assert_eq!(index.add(&[0.0, 0.0], 0), Err("dimension is different"));
    assert!(panics(|| index.search(&[0.0, 0.0], 1)));
}

#[test]
fn a_full_index() {
    let mut index = hora(&HNSWParams::default().max_item(0));
    let full = Err("The number of elements exceeds the specified limit");
    assert_eq!(index.add(&[0.0], 0), full);
}

/// Bounds that hora lacks: it takes these parameters, and some of them end in a panic.
#[test]
fn parameters_past_our_bounds() {
    let build_two = |params: HNSWParams<f32>| {
        let mut index = hora(&params);
        index.add(&[0.0], 0).unwrap();
        index.give_level(1);
        index.add(&[1.0], 1).unwrap();
        index.build(Metric::Euclidean).unwrap();
        index.search(&[1.0], 1)
    };
    assert!(panics(|| build_two(HNSWParams::default().n_neighbor0(0))));
    assert!(panics(|| build_two(HNSWParams::default().n_neighbor(0))));
    assert_eq!(build_two(HNSWParams::default().n_neighbor0(65)), [1]);
    assert_eq!(build_two(HNSWParams::default().ef_build(0)), [1]);
    assert_eq!(build_two(HNSWParams::default().ef_search(513)), [1]);
    assert_eq!(HNSWParams::<f32>::default().max_item, 1_000_000);
}

#[test]
fn k_above_512() {
    let mut index = hora(&HNSWParams::default());
    index.add(&[0.0], 0).unwrap();
    index.build(Metric::Euclidean).unwrap();
    assert_eq!(index.search(&[0.0], 513), [0]);
}

/// hora answers with the index that its user gave, and panics if there was none.
#[test]
fn an_item_without_an_index_panics_when_found() {
    let mut index = hora(&HNSWParams::default());
    index.add(&[0.0], 77).unwrap();
    index.build(Metric::Euclidean).unwrap();
    assert_eq!(index.search(&[0.0], 1), [77]);
    index.add_node(&Node::new(&[0.0])).unwrap();
    index.build(Metric::Euclidean).unwrap();
    assert!(panics(|| index.search(&[0.0], 2)));
}

// Distances: hora's own kernels.

fn own(x: &[f32], y: &[f32], mt: planted::Metric) -> f32 {
    switch(Planted::OwnKernel);
    let distance = planted::core::metrics::metric::<f32>(x, y, mt).unwrap();
    switch(Planted::None);
    distance
}

#[test]
fn hora_negates_a_dot_product_twice() {
    assert_eq!(own(&[1.0], &[1.0], planted::Metric::DotProduct), 1.0);
    assert_eq!(metric::<f32>(&[1.0], &[1.0], Metric::DotProduct), Ok(-1.0));
}

/// The sum of products is -0.0 in hora and +0.0 here; each is negated once.
#[test]
fn horas_sum_starts_at_minus_zero() {
    let horas = oracle::core::calc::dot::<f32>(&[1.0], &[-0.0]).unwrap();
    assert_eq!(horas.to_bits(), 0);
    let ours = metric::<f32>(&[1.0], &[-0.0], Metric::DotProduct).unwrap();
    assert_eq!(ours.to_bits(), 0x8000_0000);
}

#[test]
fn hora_cuts_no_distance() {
    let max = f32::MAX;
    assert_eq!(
        own(&[max], &[0.0], planted::Metric::Euclidean),
        f32::INFINITY
    );
    assert_eq!(
        own(&[max], &[-max], planted::Metric::Manhattan),
        f32::INFINITY
    );
    assert!(own(&[max, max], &[max, -max], planted::Metric::DotProduct).is_nan());
}

/// A marked entry is walked with the bound at the largest finite number; +inf lies above it.
#[test]
fn an_infinite_distance_ends_the_walk_at_marked_ids() {
    let params = Params {
        has_deletion: true,
        ..LEAST
    };
    let built = [add(1.0, 0), add(0.0, 0), add(0.0, 0), BUILD];
    let searched = [mark(0), mark(1), search(f32::MAX, 1)];
    let steps = [&built[..], &searched[..]].concat();
    let (ours, hora) = both(params, &steps, Planted::OwnKernel);
    assert_eq!(lists(&ours), [[1], [2], [1]]);
    assert_eq!(lists(&hora), lists(&ours));
    assert_eq!(found(&ours), [2]);
    assert_eq!(found(&hora), []);
}

/// NaN cannot be ordered: hora panics where two are compared.
#[test]
fn a_distance_that_is_nan_panics() {
    let max = f32::MAX;
    let vector = |sign: f32| vec![max, sign * max];
    let metric = Metric::DotProduct;
    let steps = vec![
        Step::Add {
            vector: vector(1.0),
            level: 0,
        },
        Step::Add {
            vector: vector(1.0),
            level: 0,
        },
        Step::Build { metric },
        Step::Search {
            query: vector(-1.0),
            k: 2,
        },
    ];
    let scenario = Scenario {
        params: Params {
            dimension: 2,
            ..LEAST
        },
        steps,
    };
    assert_eq!(run_with(Planted::OwnKernel, &scenario), None);
    assert_eq!(found(&run::<Oracle>(&scenario)), [1, 0]);
}

/// `dot` is negated, so each norm is the root of a negative number: every cosine is NaN.
#[test]
fn horas_cosine_is_never_a_number() {
    for (x, y) in [(1.0, 1.0), (1.0, -1.0), (0.0, 1.0), (0.0, 0.0)] {
        assert!(metric::<f32>(&[x], &[y], Metric::CosineSimilarity)
            .unwrap()
            .is_nan());
    }
}

/// `dot` is negated and `float_two` is 1: 1 + cos, so that opposite vectors are the nearest.
#[test]
fn horas_angular_distance_is_upside_down() {
    let angular = |x: f32, y: f32| metric(&[x], &[y], Metric::Angular).unwrap();
    assert_eq!(angular(1.0, 1.0), 2.0);
    assert_eq!(angular(1.0, -1.0), 0.0);
}
