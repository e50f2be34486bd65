//! The starred cases of 01 that stand below the index: distances and the heap.

use oracle::core::heap::BinaryHeap;
use oracle::core::metrics::metric;
use oracle::core::neighbor::Neighbor;
use oracle::Metric;

/// (1,2) and (4,-2): Euclidean 25, Manhattan 7, DotProduct bits 0x80000000.
#[test]
fn distances() {
    let distance = |mt| metric::<f32>(&[1.0, 2.0], &[4.0, -2.0], mt).unwrap();
    assert_eq!(distance(Metric::Euclidean), 25.0);
    assert_eq!(distance(Metric::Manhattan), 7.0);
    assert_eq!(distance(Metric::DotProduct).to_bits(), 0x8000_0000);
}

/// Past the finite range a distance is cut to its end; infinity less infinity counts as far.
#[test]
fn cut_to_the_finite_range() {
    let max = f32::MAX;
    let far = |mt, x: &[f32], y: &[f32]| metric::<f32>(x, y, mt).unwrap();
    assert_eq!(far(Metric::Euclidean, &[max], &[-max]), max);
    assert_eq!(far(Metric::Manhattan, &[max], &[-max]), max);
    assert_eq!(far(Metric::DotProduct, &[max], &[-max]), max);
    assert_eq!(far(Metric::DotProduct, &[max], &[max]), -max);
    assert_eq!(far(Metric::DotProduct, &[max, max], &[max, -max]), max);
}

/// "at most 16,646,400": 64 squares of 510 are summed without rounding.
#[test]
fn whole_coordinates_are_exact() {
    let distance = metric::<f32>(&[255.0; 64], &[-255.0; 64], Metric::Euclidean).unwrap();
    assert_eq!(distance, 16_646_400.0);
}

/// Pushing 0 at 25, 1 at 25, 2 at 1, sorted: 2, 1, 0.
#[test]
fn sorted() {
    let mut heap = BinaryHeap::new();
    for (id, distance) in [(0, 25.0), (1, 25.0), (2, 1.0)] {
        heap.push(Neighbor::<f32, usize>::new(id, distance));
    }
    let ids: Vec<usize> = heap.into_sorted_vec().iter().map(Neighbor::idx).collect();
    assert_eq!(ids, [2, 1, 0]);
}

/// "When two children are equal the right one is taken": 0 leaves, then the right child, 2.
#[test]
fn the_right_child_on_a_tie() {
    let mut heap = BinaryHeap::new();
    for (id, distance) in [(0, 2.0), (1, 1.0), (2, 1.0), (3, 0.0)] {
        heap.push(Neighbor::<f32, usize>::new(id, distance));
    }
    let popped: Vec<usize> = std::iter::from_fn(|| heap.pop()).map(|n| n.idx()).collect();
    assert_eq!(popped, [0, 2, 1, 3]);
}
