//! 01's header, and the bounds of its first eight numbers.

#[derive(Debug, Clone, Copy, PartialEq, Eq)]
pub struct Header {
    pub dimension: u16,
    pub capacity: u16,
    pub n_neighbor: u16,
    pub n_neighbor0: u16,
    pub max_level: u16,
    pub ef_build: u16,
    pub ef_search: u16,
    /// 0 or 1; a number above 1 lies outside its bounds.
    pub has_deletion: u16,
    pub metric: u16,
    pub added: u16,
    pub built: u16,
}

/// The lowest and the highest of each, in the header's order.
pub const BOUNDS: [(u16, u16); 8] = [
    (1, 256),
    (1, 4096),
    (1, 64),
    (1, 64),
    (0, 20),
    (1, 512),
    (1, 512),
    (0, 1),
];

impl Header {
    /// From the eleven numbers in 01's order.
    pub fn of(numbers: &[u16; 11]) -> Header {
        Header {
            dimension: numbers[0],
            capacity: numbers[1],
            n_neighbor: numbers[2],
            n_neighbor0: numbers[3],
            max_level: numbers[4],
            ef_build: numbers[5],
            ef_search: numbers[6],
            has_deletion: numbers[7],
            metric: numbers[8],
            added: numbers[9],
            built: numbers[10],
        }
    }

    pub fn numbers(&self) -> [u16; 11] {
        [
            self.dimension,
            self.capacity,
            self.n_neighbor,
            self.n_neighbor0,
            self.max_level,
            self.ef_build,
            self.ef_search,
            self.has_deletion,
            self.metric,
            self.added,
            self.built,
        ]
    }

    pub fn within(&self, bounds: &[(u16, u16); 8]) -> bool {
        let numbers = self.numbers();
        let inside =
            |(number, bound): (&u16, &(u16, u16))| bound.0 <= *number && *number <= bound.1;
        numbers.iter().zip(bounds).all(inside)
    }
}
