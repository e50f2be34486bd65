//! The proved heap against hora's heap.rs: what leaves, in which order.

use leaves::Heap;
use oracle::core::heap::BinaryHeap;
use oracle::core::neighbor::Neighbor;
use scenarios::random::Random;

/// Both heaps side by side: every step must leave the same.
struct Both {
    ours: Heap,
    horas: BinaryHeap<Neighbor<f32, usize>>,
    pushed: u16,
}

impl Both {
    fn new(capacity: usize) -> Both {
        Both {
            ours: Heap::with_capacity(capacity),
            horas: BinaryHeap::new(),
            pushed: 0,
        }
    }

    /// Ids count up, so that each entry can be told from every other.
    fn push(&mut self, distance: f32) {
        self.ours.push(self.pushed, distance);
        self.horas
            .push(Neighbor::new(self.pushed as usize, distance));
        self.pushed += 1;
    }

    fn pop(&mut self) {
        let horas = self.horas.pop().map(|n| (n.idx() as u16, n.distance()));
        assert_eq!(self.ours.pop(), horas);
    }

    fn sort(mut self) {
        let (ids, distances) = self.ours.sort();
        let sorted = self.horas.into_sorted_vec();
        let horas_ids: Vec<u16> = sorted.iter().map(|n| n.idx() as u16).collect();
        let horas_distances: Vec<f32> = sorted.iter().map(|n| n.distance()).collect();
        assert_eq!(ids, horas_ids);
        assert_eq!(distances, horas_distances);
    }
}

/// A step is a push of one of three distances, or a pop.
fn run(steps: &[u32]) -> Both {
    let mut both = Both::new(7);
    for step in steps {
        match step {
            3 => both.pop(),
            distance => both.push(*distance as f32),
        }
    }
    both
}

#[test]
fn every_sequence_of_up_to_seven_steps() {
    let mut sequences = 0;
    for length in 0..=7u32 {
        for code in 0..4u32.pow(length) {
            let steps: Vec<u32> = (0..length).map(|i| code / 4u32.pow(i) % 4).collect();
            let mut both = run(&steps);
            while !both.ours.is_empty() {
                both.pop();
            }
            run(&steps).sort();
            sequences += 1;
        }
    }
    assert_eq!(sequences, 21_845);
}

#[test]
fn long_random_sequences() {
    for seed in 0..200 {
        let mut random = Random::new(seed);
        let kinds = 1 + random.below(50);
        let mut both = Both::new(2000);
        for _ in 0..2000 {
            if random.below(3) == 0 {
                both.pop();
            } else {
                // Both signs: the candidate heap holds negated distances.
                both.push(random.below(kinds) as f32 - kinds as f32 / 2.0);
            }
        }
        if seed % 2 == 0 {
            both.sort();
        } else {
            while !both.ours.is_empty() {
                both.pop();
            }
        }
    }
}
