//! A small generator of pseudo-random numbers: splitmix64. The same seed gives the same numbers
//! on every machine.

pub struct Random {
    state: u64,
}

impl Random {
    pub fn new(seed: u64) -> Random {
        Random { state: seed }
    }

    pub fn draw(&mut self) -> u64 {
        self.state = self.state.wrapping_add(0x9E37_79B9_7F4A_7C15);
        let mut z = self.state;
        z = (z ^ (z >> 30)).wrapping_mul(0xBF58_476D_1CE4_E5B9);
        z = (z ^ (z >> 27)).wrapping_mul(0x94D0_49BB_1331_11EB);
        z ^ (z >> 31)
    }

    /// From 0 to `n` - 1, from the high half of a draw; `n` lies far below 2^32.
    pub fn below(&mut self, n: usize) -> usize {
        (((self.draw() >> 32) * n as u64) >> 32) as usize
    }

    /// Both ends included.
    pub fn between(&mut self, range: (usize, usize)) -> usize {
        range.0 + self.below(range.1 - range.0 + 1)
    }

    pub fn percent(&mut self, chance: usize) -> bool {
        self.below(100) < chance
    }

    pub fn pick<T: Copy>(&mut self, from: &[T]) -> T {
        from[self.below(from.len())]
    }
}

#[cfg(test)]
mod tests {
    use super::Random;

    /// The first numbers that splitmix64 is known to give for the seed 1234567.
    #[test]
    fn splitmix64() {
        let mut random = Random::new(1234567);
        assert_eq!(random.draw(), 6457827717110365317);
        assert_eq!(random.draw(), 3203168211198807973);
        assert_eq!(random.draw(), 9817491932198370423);
    }

    #[test]
    fn ranges_are_met_and_kept() {
        let mut random = Random::new(1);
        let mut met = [false; 5];
        for _ in 0..1000 {
            met[random.between((3, 7)) - 3] = true;
        }
        assert_eq!(met, [true; 5]);
    }
}
