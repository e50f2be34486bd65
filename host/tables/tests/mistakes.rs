//! What the driver finds, and that it finds nothing where nothing is wrong.

mod mistaken;

use mistaken::{Effect, Mistaken, Refusing};
use plain::header::BOUNDS;
use std::collections::BTreeSet;
use tables::{compare, Plain};

const ROUNDS: usize = 20_000;

fn mistaken(refusing: Refusing, effect: Effect) -> Mistaken {
    Mistaken { refusing, effect }
}

/// The round in which a mistake is found first. The difference must show again from its seed.
fn found(name: &str, refusing: Refusing, effect: Effect) {
    let mut wrong = mistaken(refusing, effect);
    let report = compare(&mut Plain, &mut wrong, 1, ROUNDS);
    let Some(first) = report.difference else {
        panic!("{name} is not found in {ROUNDS} rounds");
    };
    println!("{name}: round {}, {}", report.rounds, first.what);
    let again = compare(&mut Plain, &mut wrong, first.seed, 1);
    let shown = again.difference.expect("the seed shows it again");
    assert_eq!((shown.call, shown.what), (first.call, first.what));
}

/// Every number that 01 lets a call give is given, and no other.
const GIVEN: [(&str, &[u32]); 6] = [
    ("begin", &[0, 1, 2]),
    ("add", &[0, 1, 2, 3, 6, 7, 8, 9]),
    ("build", &[0, 1, 2, 3, 4, 5]),
    ("mark", &[0, 1, 2, 3, 12, 13, 14]),
    ("search", &[0, 1, 2, 3, 6, 9, 10, 11]),
    ("search_records", &[0, 1, 2, 3, 6, 9, 10, 11]),
];

/// The right table of numbers gives the plain reading's numbers; all of them are met.
#[test]
fn nothing_is_found_without_a_mistake() {
    let mut same = mistaken(Refusing::default(), Effect::None);
    let report = compare(&mut Plain, &mut same, 1, ROUNDS);
    println!(
        "{} rounds, {} calls, {} cells, {} listed",
        report.rounds,
        report.calls(),
        report.cells,
        report.listed
    );
    println!("{:?}", report.numbers);
    assert!(report.difference.is_none(), "{:?}", report.difference);
    let expected = GIVEN
        .iter()
        .flat_map(|(name, numbers)| numbers.iter().map(|n| (*name, *n)));
    let expected: BTreeSet<(&str, u32)> = expected.collect();
    let given: BTreeSet<(&str, u32)> = report.numbers.keys().copied().collect();
    assert_eq!(given, expected);
}

#[test]
fn a_rule_left_out() {
    for rule in 1..=9 {
        let mut refusing = Refusing::default();
        refusing.rules.remove(rule - 1);
        found(&format!("R{rule} left out"), refusing, Effect::None);
    }
}

/// Every parameter, both ends, one too wide and one too narrow.
#[test]
fn a_bound_off_by_one() {
    for (at, (low, high)) in BOUNDS.into_iter().enumerate() {
        let below = low.checked_sub(1).map(|below| (below, high));
        let others = [
            Some((low + 1, high)),
            below,
            Some((low, high - 1)),
            Some((low, high + 1)),
        ];
        for bound in others.into_iter().flatten() {
            let mut refusing = Refusing::default();
            refusing.bounds[at] = bound;
            found(&format!("number {at} in {bound:?}"), refusing, Effect::None);
        }
    }
}

/// Each two numbers that a call tests one after the other and that can apply together, the higher
/// one first; and the rules last of all.
#[test]
fn another_order_of_tests() {
    let pairs = [
        (1, 2),
        (4, 5),
        (6, 7),
        (7, 8),
        (8, 9),
        (6, 9),
        (9, 10),
        (10, 11),
        (12, 13),
    ];
    for (low, high) in pairs {
        let mut refusing = Refusing::default();
        refusing.order.retain(|number| *number != high);
        let at = refusing.order.iter().position(|number| *number == low);
        refusing.order.insert(at.unwrap(), high);
        found(&format!("{high} before {low}"), refusing, Effect::None);
    }
    let mut refusing = Refusing::default();
    refusing.order.retain(|number| *number != 3);
    refusing.order.push(3);
    found("rules last", refusing, Effect::None);
}

#[test]
fn a_number_that_is_not_tested() {
    for number in 1..=14 {
        let mut refusing = Refusing::default();
        refusing.order.retain(|tested| *tested != number);
        found(&format!("{number} not tested"), refusing, Effect::None);
    }
}

#[test]
fn a_wrong_effect() {
    let effects = [
        Effect::BeginLeaves(0),
        Effect::BeginLeaves(1),
        Effect::BeginLeaves(2),
        Effect::BeginLeaves(3),
        Effect::BeginKeepsHeader,
        Effect::BeginWroteFirst,
        Effect::Id0OwnLevel,
        Effect::AddWroteLevel,
        Effect::AddWroteVector,
        Effect::AddCounted,
        Effect::BuildStoresNoLinks,
        Effect::BuildOfNoneKeepsMetric,
        Effect::BuildSetMetric,
        Effect::MarkChangesNothing,
        Effect::MarkToggles,
        Effect::FoundOneMore,
        Effect::FoundOneLess,
        Effect::PastFound(0),
        Effect::PastFound(1),
        Effect::PastFound(2),
        Effect::SearchWroteFirst,
        Effect::PastTheEnd,
        Effect::ZeroWithoutSign,
        Effect::TiesById,
    ];
    for effect in effects {
        found(&format!("{effect:?}"), Refusing::default(), effect);
    }
}
