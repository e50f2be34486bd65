//! The proved heap against hora's heap.rs on the sequences of a walk, and each proved kernel against the same
//! scalar loop in Rust. Prints two Markdown tables.

use bench::compare;
use leaves::Heap;
use oracle::core::heap::BinaryHeap;
use oracle::core::neighbor::Neighbor;
use oracle::kernel::Kernel;
use scenarios::random::Random;
use std::hint::black_box;

const ROUNDS: usize = 61;

/// What a walk does to its two heaps: each distance goes to both, the kept one is cut to the width, and every
/// second step a candidate leaves.
trait Heaps {
    fn begin(&mut self);
    fn keep(&mut self, id: u16, distance: f32, width: usize);
    fn candidate(&mut self, id: u16, distance: f32);
    fn next(&mut self) -> u64;
    fn sorted(&mut self) -> u64;
}

fn mix(sum: u64, id: u64, distance: f32) -> u64 {
    (sum.rotate_left(5) ^ id).wrapping_add(distance.to_bits() as u64)
}

struct Ours {
    kept: Heap,
    candidates: Heap,
}

impl Heaps for Ours {
    fn begin(&mut self) {
        self.kept.clear();
        self.candidates.clear();
    }

    fn keep(&mut self, id: u16, distance: f32, width: usize) {
        self.kept.push(id, distance);
        if self.kept.len() > width {
            self.kept.pop();
        }
    }

    fn candidate(&mut self, id: u16, distance: f32) {
        self.candidates.push(id, -distance);
    }

    fn next(&mut self) -> u64 {
        let (id, distance) = self.candidates.pop().unwrap();
        mix(0, id as u64, distance)
    }

    fn sorted(&mut self) -> u64 {
        let (ids, distances) = self.kept.sort();
        ids.iter()
            .zip(distances)
            .fold(0, |sum, (id, distance)| mix(sum, *id as u64, *distance))
    }
}

struct Horas {
    kept: BinaryHeap<Neighbor<f32, usize>>,
    candidates: BinaryHeap<Neighbor<f32, usize>>,
}

impl Heaps for Horas {
    fn begin(&mut self) {
        self.kept = BinaryHeap::new();
        self.candidates = BinaryHeap::new();
    }

    fn keep(&mut self, id: u16, distance: f32, width: usize) {
        self.kept.push(Neighbor::new(id as usize, distance));
        if self.kept.len() > width {
            self.kept.pop();
        }
    }

    fn candidate(&mut self, id: u16, distance: f32) {
        self.candidates.push(Neighbor::new(id as usize, -distance));
    }

    fn next(&mut self) -> u64 {
        let top = self.candidates.pop().unwrap();
        mix(0, top.idx() as u64, top.distance())
    }

    fn sorted(&mut self) -> u64 {
        let kept = std::mem::replace(&mut self.kept, BinaryHeap::new());
        kept.into_sorted_vec()
            .iter()
            .fold(0, |sum, n| mix(sum, n.idx() as u64, n.distance()))
    }
}

fn walk<H: Heaps>(heaps: &mut H, distances: &[f32], width: usize) -> u64 {
    heaps.begin();
    let mut sum = 0u64;
    for (id, distance) in distances.iter().enumerate() {
        heaps.keep(id as u16, *distance, width);
        heaps.candidate(id as u16, *distance);
        if id % 2 == 1 {
            sum = sum.wrapping_mul(31).wrapping_add(heaps.next());
        }
    }
    sum.wrapping_add(heaps.sorted())
}

fn heap_row(count: usize, width: usize, kinds: usize) {
    let mut random = Random::new(count as u64 + width as u64);
    let walks: Vec<Vec<f32>> = (0..50)
        .map(|_| (0..count).map(|_| random.below(kinds) as f32).collect())
        .collect();
    let mut ours = Ours {
        kept: Heap::with_capacity(width + 1),
        candidates: Heap::with_capacity(count),
    };
    let mut horas = Horas {
        kept: BinaryHeap::new(),
        candidates: BinaryHeap::new(),
    };
    let each = |h: &mut dyn FnMut(&[f32]) -> u64| {
        walks
            .iter()
            .fold(0u64, |sum, w| sum.wrapping_add(h(black_box(w))))
    };
    let m = compare(
        ROUNDS,
        50 * count,
        &mut || each(&mut |w| walk(&mut ours, w, width)),
        &mut || each(&mut |w| walk(&mut horas, w, width)),
    );
    println!(
        "| {count} | {width} | {kinds} | {:.1} | {:.1} | {:.2} |",
        m.ours, m.theirs, m.ratio
    );
}

fn kernel_row(name: &str, number: u16, dimension: usize, loop_in_rust: fn(&[f32], &[f32]) -> f32) {
    let mut random = Random::new(dimension as u64);
    let count = 512;
    let vectors: Vec<f32> = (0..count * dimension)
        .map(|_| random.below(511) as f32 - 255.0)
        .collect();
    let query: Vec<f32> = (0..dimension).map(|_| random.below(511) as f32).collect();
    let sum_of = |distance: &dyn Fn(&[f32], &[f32]) -> f32| {
        vectors.chunks_exact(dimension).fold(0u64, |sum, v| {
            mix(sum, 0, distance(black_box(v), black_box(&query)))
        })
    };
    let m = compare(
        ROUNDS,
        count,
        &mut || sum_of(&|a, b| leaves::distance(number, a, b)),
        &mut || sum_of(&|a, b| loop_in_rust(a, b)),
    );
    println!(
        "| {name} | {dimension} | {:.1} | {:.1} | {:.2} |",
        m.ours, m.theirs, m.ratio
    );
}

fn main() {
    println!("| distances | width | different ones | ours, ns a step | hora, ns a step | ratio |");
    println!("|---|---|---|---|---|---|");
    for (count, width) in [(500, 100), (500, 500), (2000, 100), (2000, 500)] {
        heap_row(count, width, 40);
        heap_row(count, width, 1_000_000);
    }
    println!();
    println!("| kernel | dimension | ours, ns | Rust loop, ns | ratio |");
    println!("|---|---|---|---|---|");
    for dimension in [16, 64, 256] {
        kernel_row("Euclidean", 3, dimension, f32::kernel_euclidean);
        kernel_row("Manhattan", 1, dimension, f32::kernel_manhattan);
        kernel_row("DotProduct", 2, dimension, f32::kernel_dot_product);
    }
}
