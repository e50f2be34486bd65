//! Kinds of coordinates. All are finite.

use crate::random::Random;

#[derive(Debug, Clone, Copy, PartialEq)]
pub enum Coordinates {
    /// Whole numbers from -n to n: sums are exact and ties common.
    Whole(usize),
    /// From -1 to 1 in steps of 2^-23: sums are rounded.
    Smooth,
    /// Both zeros, subnormal numbers and a few ordinary ones.
    Small,
    /// Any finite bits.
    AnyBits,
    /// So large that squares, products or differences run past the finite range, or just not.
    Huge,
}

impl Coordinates {
    pub fn draw(self, random: &mut Random) -> f32 {
        match self {
            Coordinates::Whole(n) => random.below(2 * n + 1) as f32 - n as f32,
            Coordinates::Smooth => random.below(1 << 24) as f32 / (1 << 23) as f32 - 1.0,
            Coordinates::Small => small(random),
            Coordinates::AnyBits => any_bits(random),
            Coordinates::Huge => huge(random),
        }
    }

    pub fn vector(self, dimension: usize, random: &mut Random) -> Vec<f32> {
        (0..dimension).map(|_| self.draw(random)).collect()
    }
}

fn signed(value: f32, random: &mut Random) -> f32 {
    if random.percent(50) {
        -value
    } else {
        value
    }
}

fn small(random: &mut Random) -> f32 {
    let value = match random.below(6) {
        0 | 1 => 0.0,
        2 => f32::from_bits(random.between((1, 0x7F_FFFF)) as u32),
        3 => f32::from_bits(random.between((1, 3)) as u32),
        4 => f32::MIN_POSITIVE,
        _ => random.below(3) as f32,
    };
    signed(value, random)
}

fn any_bits(random: &mut Random) -> f32 {
    loop {
        let value = f32::from_bits(random.draw() as u32);
        if value.is_finite() {
            return value;
        }
    }
}

fn huge(random: &mut Random) -> f32 {
    let value = match random.below(6) {
        0 => f32::MAX,
        1 => f32::MAX / 2.0,
        // About the root of the largest finite number: some squares are finite, some are not.
        2 | 3 => f32::from_bits(random.between((0x5F00_0000, 0x5FFF_FFFF)) as u32),
        4 => f32::from_bits(random.between((0x7000_0000, 0x7F7F_FFFF)) as u32),
        _ => random.below(2) as f32,
    };
    signed(value, random)
}
