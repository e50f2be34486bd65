//! The starred cases of 01 that the Rust can run, on the oracle. The numbers are 01's.

use oracle::Oracle;
use scenarios::subject::{run, Answer};
use scenarios::{starred, Scenario};

/// The level-0 list of each id after the only build.
fn lists(scenario: &Scenario) -> Vec<Vec<usize>> {
    let links = |answer| match answer {
        Answer::Links(links) => Some(links),
        _ => None,
    };
    let links = run::<Oracle>(scenario).into_iter().find_map(links).unwrap();
    links.into_iter().map(|mut lists| lists.remove(0)).collect()
}

/// The answers of the searches, in order.
fn searches(scenario: &Scenario) -> Vec<Vec<(usize, u32)>> {
    let found = |answer| match answer {
        Answer::Found(found) => Some(found),
        _ => None,
    };
    run::<Oracle>(scenario)
        .into_iter()
        .filter_map(found)
        .collect()
}

/// Level-0 lists after build: 0 has 1, 2; 1 has 3; 2 has 3, 0; 3 has 2, 1.
#[test]
fn lists_after_build() {
    let expected = [vec![1, 2], vec![3], vec![3, 0], vec![2, 1]];
    assert_eq!(lists(&starred::profiles()), expected);
}

/// "That list, size 4: all three kept. Size 3: 2 and 1, since 0 is 16 from 2. Size 2: 2 and 1."
/// The list is the one that id 3 chooses from: 2 at 1, then 1 and 0 at 25.
#[test]
fn choice_by_size() {
    let chosen = |size| lists(&starred::line(size, false, &[0.0, 10.0, 4.0, 5.0]))[3].clone();
    assert_eq!(chosen(4), [2, 1, 0]);
    assert_eq!(chosen(3), [2, 1]);
    assert_eq!(chosen(2), [2, 1]);
}

/// Query 6: k 1 gives id 3, k 0 nothing, k 4 all four with these distance bits, k 9 the same.
#[test]
fn query_6() {
    let all = vec![
        (3, 1065353216),
        (2, 1082130432),
        (1, 1098907648),
        (0, 1108344832),
    ];
    let answers = searches(&starred::profiles());
    assert_eq!(answers, [vec![all[0]], vec![], all.clone(), all]);
}

/// `has_deletion`, 3 marked, query 6, k 1: id 2 at 4.
#[test]
fn a_marked_profile() {
    let answers = searches(&starred::marked_profile());
    assert_eq!(answers, [vec![(2, 4f32.to_bits())]]);
}

/// Ids at 0, 100, 101, lists 1 / 0, 2 / 1, id 1 marked.
/// Query 0, k 3: only id 0. Query 101, k 3: 2 at 0, then 0 at 10201.
#[test]
fn a_marked_bridge() {
    let scenario = starred::marked_bridge();
    assert_eq!(lists(&scenario), [vec![1], vec![0, 2], vec![1]]);
    let far = vec![(2, 0f32.to_bits()), (0, 10201f32.to_bits())];
    assert_eq!(searches(&scenario), [vec![(0, 0f32.to_bits())], far]);
}

/// An added id searched before build is never listed.
#[test]
fn an_added_id_is_not_listed() {
    let mut scenario = starred::profiles();
    scenario.params.capacity = 5;
    scenario.steps.push(starred::add(6.0));
    scenario.steps.push(starred::search(6.0, 9));
    let answers = searches(&scenario);
    assert_eq!(answers[4], answers[3]);
    scenario.steps.push(starred::build());
    scenario.steps.push(starred::search(6.0, 9));
    assert_eq!(searches(&scenario)[5][0], (4, 0f32.to_bits()));
}
