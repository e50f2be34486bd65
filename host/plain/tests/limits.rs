//! Every bound at both ends and one past it, every length one off.

mod common;

use common::{profiles, Index};
use plain::{Header, Tables};

/// 01's bounds, written out: dimension, capacity, `n_neighbor`, `n_neighbor0`, `max_level`,
/// `ef_build`, `ef_search`, `has_deletion`.
const ENDS: [(u16, u16); 8] = [
    (1, 256),
    (1, 4096),
    (1, 64),
    (1, 64),
    (0, 20),
    (1, 512),
    (1, 512),
    (0, 1),
];

fn with(at: usize, number: u16) -> Header {
    let mut numbers = [2, 3, 2, 3, 1, 4, 4, 1, 0, 0, 0];
    numbers[at] = number;
    Header::of(&numbers)
}

/// What searching, marking, building, adding and beginning answer, in this order.
fn numbers(header: Header, tables: Tables) -> [u32; 5] {
    let mut index = Index { header, tables };
    let vector = vec![1.0; header.dimension as usize];
    let searched = index.search_into(&vector, 1, (1, 1)).number;
    let marked = index.mark(0);
    let built = index.build(3);
    let added = index.add(&vector, 0);
    [searched, marked, built, added, index.begin()]
}

#[test]
fn parameters() {
    for (at, (low, high)) in ENDS.into_iter().enumerate() {
        for end in [low, high] {
            let header = with(at, end);
            let marked = if header.has_deletion == 1 { 13 } else { 12 };
            let done = [0, marked, 0, 0, 0];
            assert_eq!(numbers(header, Tables::zeroed(&header)), done, "{at} {end}");
        }
        for past in [low.checked_sub(1), Some(high + 1), Some(65_535)] {
            let Some(past) = past else { continue };
            let near = Tables::zeroed(&with(at, past.clamp(low, high)));
            assert_eq!(numbers(with(at, past), near), [1; 5], "{at} {past}");
        }
    }
}

/// Tables as long as a capacity of 4,097 would want: still 1.
#[test]
fn a_capacity_of_4097() {
    let header = with(1, 4097);
    assert_eq!(numbers(header, Tables::zeroed(&header)), [1; 5]);
}

#[test]
fn lengths() {
    let header = with(0, 2);
    let whole = Tables::zeroed(&header);
    for cut in [0, 1] {
        let shorter = |length: usize| if cut == 0 { 0 } else { length - 1 };
        let mut tables = [(); 4].map(|_| whole.clone());
        tables[0].vectors.truncate(shorter(whole.vectors.len()));
        tables[1].levels.truncate(shorter(whole.levels.len()));
        tables[2].marks.truncate(shorter(whole.marks.len()));
        tables[3].links.truncate(shorter(whole.links.len()));
        for one in tables {
            assert_eq!(numbers(header, one), [2; 5]);
        }
    }
    let mut tables = [(); 4].map(|_| whole.clone());
    tables[0].vectors.push(0.0);
    tables[1].levels.push(0);
    tables[2].marks.push(0);
    tables[3].links.push(0);
    for one in tables {
        assert_eq!(numbers(header, one), [2; 5]);
    }
}

/// The lengths themselves, by hand: 3 ids of 2 coordinates; a block is 1 + 3 and 1 + 2.
#[test]
fn lengths_by_hand() {
    let tables = Tables::zeroed(&with(0, 2));
    assert_eq!(tables.view().lengths(), [6, 3, 3, 21]);
}

/// k 512 accepted, 513 gives 10.
#[test]
fn k() {
    let mut index = profiles(0);
    assert_eq!(index.search_into(&[6.0], 512, (513, 513)).number, 0);
    assert_eq!(index.search_into(&[6.0], 513, (513, 513)).number, 10);
}
