//! A set of block numbers of a pack.

pub struct BlockSet {
    bits: Vec<u64>,
}

impl BlockSet {
    /// The empty set, of a pack of so many blocks.
    pub fn new(blocks: usize) -> BlockSet {
        BlockSet { bits: vec![0; blocks.div_ceil(64)] }
    }

    #[inline]
    pub fn contains(&self, block: usize) -> bool {
        self.bits[block / 64] >> (block % 64) & 1 == 1
    }

    /// Puts a block in; false if it was there.
    #[inline]
    pub fn insert(&mut self, block: usize) -> bool {
        let word = &mut self.bits[block / 64];
        let bit = 1 << (block % 64);
        let fresh = *word & bit == 0;
        *word |= bit;
        fresh
    }
}
