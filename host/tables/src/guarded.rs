//! A buffer between guard cells, for a library that may write where it should not.

use plain::Neighbor;

/// Guard cells on each side.
const GUARD: usize = 32;

/// What a buffer is made of.
pub trait Cell: Copy {
    /// A guard cell; its value differs from place to place, so that a shifted copy shows.
    fn guard(at: usize) -> Self;

    /// Two cells are the same if their bits are.
    fn bits(&self) -> u64;
}

impl Cell for u8 {
    fn guard(at: usize) -> u8 {
        0xA5 ^ at as u8
    }

    fn bits(&self) -> u64 {
        *self as u64
    }
}

impl Cell for u16 {
    fn guard(at: usize) -> u16 {
        0xA55A ^ at as u16
    }

    fn bits(&self) -> u64 {
        *self as u64
    }
}

/// The guards are NaNs, each with a payload of its own.
impl Cell for f32 {
    fn guard(at: usize) -> f32 {
        f32::from_bits(0x7FA5_5A00 ^ at as u32)
    }

    fn bits(&self) -> u64 {
        self.to_bits() as u64
    }
}

impl Cell for Neighbor {
    fn guard(at: usize) -> Neighbor {
        Neighbor {
            id: u16::guard(at),
            distance: f32::guard(at),
        }
    }

    fn bits(&self) -> u64 {
        (self.id as u64) << 32 | self.distance.to_bits() as u64
    }
}

#[derive(Clone)]
pub struct Guarded<T> {
    cells: Vec<T>,
}

impl<T: Cell> Guarded<T> {
    pub fn new(inside: &[T]) -> Guarded<T> {
        let before = (0..GUARD).map(T::guard);
        let after = (GUARD..2 * GUARD).map(T::guard);
        let cells = before.chain(inside.iter().copied()).chain(after);
        Guarded {
            cells: cells.collect(),
        }
    }

    pub fn inside(&self) -> &[T] {
        &self.cells[GUARD..self.cells.len() - GUARD]
    }

    pub fn inside_mut(&mut self) -> &mut [T] {
        let end = self.cells.len() - GUARD;
        &mut self.cells[GUARD..end]
    }

    /// Whether no guard has changed.
    pub fn guards_hold(&self) -> bool {
        let after = self.cells.len() - GUARD;
        let same = |(at, cell): (usize, &T)| cell.bits() == T::guard(at).bits();
        let before = self.cells[..GUARD].iter();
        before.chain(&self.cells[after..]).enumerate().all(same)
    }

    /// The first place inside where two buffers of one length differ.
    pub fn first_difference(&self, other: &Guarded<T>) -> Option<usize> {
        let pairs = self.inside().iter().zip(other.inside());
        pairs.map(|(a, b)| a.bits() != b.bits()).position(|d| d)
    }
}

#[cfg(test)]
mod tests {
    use super::*;

    /// Every guard cell counts, and no inner cell does.
    fn every_guard_counts<T: Cell>(inside: &[T], other: T) {
        let whole = Guarded::new(inside);
        assert_eq!(whole.cells.len(), inside.len() + 2 * GUARD);
        assert!(whole.guards_hold());
        for at in 0..whole.cells.len() {
            let mut changed = whole.clone();
            changed.cells[at] = other;
            let inner = (GUARD..GUARD + inside.len()).contains(&at);
            assert_eq!(changed.guards_hold(), inner);
            let difference = changed.first_difference(&whole);
            assert_eq!(difference, inner.then(|| at - GUARD));
        }
    }

    #[test]
    fn guards() {
        every_guard_counts(&[1u8, 2, 3], 9);
        every_guard_counts::<u16>(&[], 9);
        every_guard_counts(&[0.5f32, f32::NAN], f32::from_bits(0x7FC0_0001));
        let other = Neighbor {
            id: 0xA55A,
            distance: 1.0,
        };
        every_guard_counts(&[Neighbor::default()], other);
    }
}
