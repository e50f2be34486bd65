//! 01's "Profiles on a line". The order numbers, the distances, the heap and the choice stand
//! beside their functions. The numbers here are 01's.

mod common;

use common::{line, line_header, profiles, Index, Searched};

/// Level-0 lists after build: 0 has 1, 2; 1 has 3; 2 has 3, 0; 3 has 2, 1.
#[test]
fn lists_after_build() {
    let index = profiles(0);
    let lists: Vec<Vec<u16>> = (0..4).map(|id| index.list(id, 0)).collect();
    assert_eq!(lists, [vec![1, 2], vec![3], vec![3, 0], vec![2, 1]]);
    // The whole link table: a count and two slots for each id.
    assert_eq!(index.tables.links, [2, 1, 2, 1, 3, 0, 2, 3, 0, 2, 2, 1]);
}

/// Query 6, k 1: id 3. k 0: empty, also with no buffer at all.
#[test]
fn query_6_k_1_and_0() {
    let mut index = profiles(0);
    let ids: Vec<u16> = index.search(&[6.0], 1).iter().map(|n| n.0).collect();
    assert_eq!(ids, [3]);
    assert_eq!(index.search(&[6.0], 0), []);
    let none = Searched {
        number: 0,
        list: vec![],
    };
    assert_eq!(index.search_into(&[6.0], 0, (0, 0)), none);
}

/// Query 6, k 4, whole program output. k 9 gives the same.
#[test]
fn query_6_k_4() {
    let expected = [
        (3, 1065353216),
        (2, 1082130432),
        (1, 1098907648),
        (0, 1108344832),
    ];
    let mut index = profiles(0);
    assert_eq!(index.search(&[6.0], 4), expected);
    assert_eq!(index.search(&[6.0], 9), expected);
}

/// `has_deletion`, 3 marked, query 6, k 1: id 2 at 4.
#[test]
fn a_marked_profile() {
    let mut index = profiles(1);
    assert_eq!(index.mark(3), 0);
    assert_eq!(index.tables.marks, [0, 0, 0, 1]);
    assert_eq!(index.search(&[6.0], 1), [(2, 4f32.to_bits())]);
}

/// Ids at 0, 100, 101, lists 1 / 0, 2 / 1, id 1 marked. Query 0, k 3: only id 0. Query 101, k 3: 2
/// at 0, then 0 at 10201.
#[test]
fn a_marked_bridge() {
    let mut index = line(&[0.0, 100.0, 101.0], 1);
    assert_eq!(index.tables.links, [1, 1, 0, 2, 0, 2, 1, 1, 0]);
    assert_eq!(index.mark(1), 0);
    assert_eq!(index.search(&[0.0], 3), [(0, 0)]);
    let far = [(2, 0), (0, 10201f32.to_bits())];
    assert_eq!(index.search(&[101.0], 3), far);
}

/// An added id searched before build is never listed.
#[test]
fn a_pending_id_is_not_listed() {
    let mut index = Index::begun(line_header(5, 0));
    assert_eq!(index.add(&[6.0], 0), 0);
    assert_eq!(index.search(&[6.0], 9), []);
    assert_eq!(index.build(3), 0);
    assert_eq!(index.search(&[6.0], 9), [(0, 0)]);
    assert_eq!(index.add(&[7.0], 0), 0);
    assert_eq!(index.search(&[7.0], 9), [(0, 1f32.to_bits())]);
    assert_eq!(index.build(3), 0);
    assert_eq!(index.search(&[7.0], 9), [(1, 0), (0, 1f32.to_bits())]);
}
