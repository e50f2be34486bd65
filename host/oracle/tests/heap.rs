//! hora's index uses the standard library's heap, the oracle hora's own `heap.rs`. On the same
//! calls both leave ties in the same order, so the oracle answers as hora does.
//! The standard library promises no order of ties: with another one this may fail, and then
//! docs/DIFFERENCES.md has one more entry.

use oracle::core::heap::BinaryHeap;
use oracle::core::neighbor::Neighbor;

type Entry = Neighbor<f32, usize>;

/// Pushes and pops drawn from a seed, with few different distances.
fn fill(seed: u64) -> (BinaryHeap<Entry>, std::collections::BinaryHeap<Entry>) {
    let mut state = seed;
    let mut ours = BinaryHeap::new();
    let mut std = std::collections::BinaryHeap::new();
    for id in 0..200 {
        state = state
            .wrapping_mul(6364136223846793005)
            .wrapping_add(1442695040888963407);
        let draw = (state >> 33) as usize;
        let entry = Neighbor::new(id, (draw % 5) as f32);
        ours.push(entry.clone());
        std.push(entry);
        if draw / 5 % 3 == 0 {
            assert_eq!(ours.pop(), std.pop());
        }
    }
    (ours, std)
}

#[test]
fn pops_as_the_standard_heap() {
    for seed in 0..500 {
        let (mut ours, mut std) = fill(seed);
        assert!(ours.len() > 50);
        while let Some(entry) = ours.pop() {
            assert_eq!(Some(entry), std.pop());
        }
        assert!(std.is_empty());
    }
}

#[test]
fn sorts_as_the_standard_heap() {
    for seed in 0..500 {
        let (ours, std) = fill(seed);
        assert_eq!(ours.into_sorted_vec(), std.into_sorted_vec());
    }
}
