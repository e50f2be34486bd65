//! Ours. The calls of the crate `fixedbitset` that hora's files make, and no more.

pub struct FixedBitSet {
    blocks: Vec<u64>,
}

impl FixedBitSet {
    pub fn with_capacity(bits: usize) -> FixedBitSet {
        FixedBitSet {
            blocks: vec![0; bits.div_ceil(64)],
        }
    }

    /// Panics, as the crate does, on a bit past the capacity.
    #[inline]
    pub fn insert(&mut self, bit: usize) {
        self.blocks[bit / 64] |= 1 << (bit % 64);
    }

    #[inline]
    pub fn contains(&self, bit: usize) -> bool {
        match self.blocks.get(bit / 64) {
            Some(block) => block & (1 << (bit % 64)) != 0,
            None => false,
        }
    }

    /// Only a planted error calls this.
    #[cfg(feature = "planted")]
    pub fn clear(&mut self) {
        self.blocks.fill(0);
    }
}
