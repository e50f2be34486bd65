//! Each fault on a table made by hand, and 01's example of a marked id.

use judge::{judge, Fault};
use plain::{Header, Neighbor, Tables};

struct Line {
    header: Header,
    tables: Tables,
}

/// Euclidean, one dimension, `max_level` 0: places, level-0 lists and marked ids.
fn line(places: &[f32], lists: &[&[u16]], marked: &[usize]) -> Line {
    let ids = places.len() as u16;
    let header = Header::of(&[1, ids, 1, 4, 0, 1, 1, 1, 3, ids, ids]);
    let mut tables = Tables::zeroed(&header);
    tables.vectors.copy_from_slice(places);
    for (id, list) in lists.iter().enumerate() {
        tables.lend().set_list(&header, id as u16, 0, list);
    }
    for id in marked {
        tables.marks[*id] = 1;
    }
    assert_eq!(plain::refusals::of_any(&header, tables.view()), 0);
    Line { header, tables }
}

impl Line {
    fn judge(&self, query: f32, k: usize, entry: u16, list: &[(u16, f32)]) -> Result<(), Fault> {
        let neighbor = |one: &(u16, f32)| Neighbor {
            id: one.0,
            distance: one.1,
        };
        let list: Vec<Neighbor> = list.iter().map(neighbor).collect();
        let view = self.tables.view();
        judge(&self.header, view, &[query], k, entry, &list)
    }
}

/// Ids at 0, 100, 101, lists 1 / 0, 2 / 1, id 1 marked. Query 0, k 3: only id 0. Query 101, k 3: 2
/// at 0, then 0 at 10201.
#[test]
fn a_marked_bridge() {
    let bridge = line(&[0.0, 100.0, 101.0], &[&[1], &[0, 2], &[1]], &[1]);
    let both = [(2, 0.0), (0, 10201.0)];
    assert_eq!(bridge.judge(0.0, 3, 0, &[(0, 0.0)]), Ok(()));
    assert_eq!(bridge.judge(101.0, 3, 0, &both), Ok(()));
    // A short answer need not hold what lies behind a marked id; what it holds must be right.
    assert_eq!(bridge.judge(101.0, 3, 0, &[(0, 10201.0)]), Ok(()));
    assert_eq!(bridge.judge(0.0, 3, 0, &[(0, 0.0), (2, 10201.0)]), Ok(()));
    let missing = Fault::Missing {
        id: 0,
        chain: vec![0],
    };
    assert_eq!(bridge.judge(101.0, 3, 0, &[(2, 0.0)]), Err(missing.clone()));
    assert_eq!(bridge.judge(0.0, 3, 0, &[]), Err(missing));
    let marked = Fault::Marked { at: 1 };
    assert_eq!(bridge.judge(0.0, 3, 0, &[(0, 0.0), (1, 1e4)]), Err(marked));
}

/// Through a marked id, nearer than the last listed, a full list is held to what lies behind it.
#[test]
fn a_nearer_id_behind_a_marked_one() {
    let bridge = line(&[0.0, 100.0, 101.0], &[&[1], &[0, 2], &[1]], &[1]);
    let left_out = Fault::LeftOut {
        id: 2,
        chain: vec![0, 1, 2],
    };
    assert_eq!(bridge.judge(101.0, 1, 0, &[(0, 10201.0)]), Err(left_out));
    assert_eq!(bridge.judge(101.0, 1, 0, &[(2, 0.0)]), Ok(()));
}

/// The entry id at 5, then 9 and 1 in a row; query 0. Id 2 is nearest, but id 1 lies between.
#[test]
fn the_ids_between_have_to_be_nearer() {
    let row = line(&[5.0, 9.0, 1.0], &[&[1], &[2], &[]], &[]);
    assert_eq!(row.judge(0.0, 1, 0, &[(0, 25.0)]), Ok(()));
    // With id 1 as the last, the entry id is nearer, and the empty chain leads to it.
    let entry = Fault::LeftOut {
        id: 0,
        chain: vec![0],
    };
    assert_eq!(row.judge(0.0, 1, 0, &[(1, 81.0)]), Err(entry));
    // Strictly nearer: id 1 as the last is not nearer than itself, so id 2 may be left out.
    let pair = [(0, 25.0), (1, 81.0)];
    assert_eq!(row.judge(0.0, 2, 0, &pair), Ok(()));
    // From id 1 as the entry, id 2 stands directly behind it, however far id 1 is.
    let behind = Fault::LeftOut {
        id: 2,
        chain: vec![1, 2],
    };
    assert_eq!(row.judge(0.0, 1, 1, &[(0, 25.0)]), Err(behind));
}

/// An equal distance is not nearer: it may be left out, and it may stand before.
#[test]
fn equal_distances() {
    let pair = line(&[1.0, -1.0], &[&[1], &[0]], &[]);
    assert_eq!(pair.judge(0.0, 1, 0, &[(0, 1.0)]), Ok(()));
    assert_eq!(pair.judge(0.0, 1, 0, &[(1, 1.0)]), Ok(()));
    assert_eq!(pair.judge(0.0, 2, 0, &[(1, 1.0), (0, 1.0)]), Ok(()));
}

/// Both zeros are one distance by order, and two by bits.
#[test]
fn distances_by_bits() {
    let pair = line(&[1.0, 1.0], &[&[1], &[0]], &[]);
    let wrong = Fault::WrongDistance { at: 1 };
    let list = [(1, 0.0), (0, -0.0)];
    assert_eq!(pair.judge(1.0, 2, 0, &list), Err(wrong));
}

/// The kinds in their order, each at the earliest place.
#[test]
fn the_first_kind_of_fault() {
    let row = line(&[0.0, 1.0, 2.0], &[&[1, 2], &[0], &[0]], &[2]);
    let judge = |k, list: &[(u16, f32)]| row.judge(0.0, k, 0, list).unwrap_err();
    let all = [(1, 9.0), (2, 4.0), (1, 1.0), (7, 0.0), (0, 0.0)];
    assert_eq!(judge(4, &all), Fault::TooLong { at: 4 });
    assert_eq!(judge(5, &all), Fault::NotBuilt { at: 3 });
    assert_eq!(judge(5, &all[..3]), Fault::Twice { at: 2 });
    assert_eq!(judge(5, &all[..2]), Fault::Marked { at: 1 });
    assert_eq!(judge(5, &all[..1]), Fault::WrongDistance { at: 0 });
    let turned = [(1, 1.0), (0, 0.0)];
    assert_eq!(judge(5, &turned), Fault::WrongOrder { at: 1 });
    let missing = Fault::Missing {
        id: 1,
        chain: vec![0, 1],
    };
    assert_eq!(judge(5, &turned[1..]), missing);
    assert_eq!(row.judge(0.0, 5, 0, &[(0, 0.0), (1, 1.0)]), Ok(()));
    assert_eq!(row.judge(0.0, 2, 0, &[(0, 0.0), (1, 1.0)]), Ok(()));
}

/// The entry id may be marked; through it the others are reached.
#[test]
fn a_marked_entry() {
    let row = line(&[0.0, 1.0, 2.0], &[&[1], &[2], &[]], &[0]);
    assert_eq!(row.judge(0.0, 3, 0, &[(1, 1.0), (2, 4.0)]), Ok(()));
    let missing = Fault::Missing {
        id: 2,
        chain: vec![0, 1, 2],
    };
    assert_eq!(row.judge(0.0, 3, 0, &[(1, 1.0)]), Err(missing));
}

/// With k 0, or nothing built, the empty list alone. The entry id must be built where any is.
#[test]
fn empty_lists() {
    let mut one = line(&[0.0], &[&[]], &[]);
    assert_eq!(one.judge(0.0, 0, 0, &[]), Ok(()));
    let long = Fault::TooLong { at: 0 };
    assert_eq!(one.judge(0.0, 0, 0, &[(0, 0.0)]), Err(long));
    let entry = Fault::EntryNotBuilt;
    assert_eq!(one.judge(0.0, 1, 1, &[(0, 0.0)]), Err(entry));
    one.header.built = 0;
    assert_eq!(one.judge(0.0, 1, 0, &[]), Ok(()));
    let none = Fault::NotBuilt { at: 0 };
    assert_eq!(one.judge(0.0, 1, 0, &[(0, 0.0)]), Err(none));
}
