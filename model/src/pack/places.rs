//! Where the blocks and the entries of an image lie, by its form.

use super::form::{Form, ENTRY_BYTES};
use crate::words::word;

impl Form {
    /// The bytes of a block.
    #[inline]
    pub fn block<'a>(&self, image: &'a [u8], number: usize) -> &'a [u8] {
        &image[self.block_bytes() * number..self.block_bytes() * (number + 1)]
    }

    /// The same, to be written.
    #[inline]
    pub fn block_mut<'a>(&self, image: &'a mut [u8], number: usize) -> &'a mut [u8] {
        &mut image[self.block_bytes() * number..self.block_bytes() * (number + 1)]
    }

    /// The payload of a linked file's block.
    #[inline]
    pub fn payload<'a>(&self, image: &'a [u8], number: usize) -> &'a [u8] {
        &self.block(image, number)[2..]
    }

    /// The next block in the chain of a linked file, 0 at its end.
    #[inline]
    pub fn link(&self, image: &[u8], number: usize) -> usize {
        word(self.block(image, number), 0) as usize
    }

    /// The 32 bytes of an entry; entries are counted from 0, on through the blocks of the contents.
    #[inline]
    pub fn entry<'a>(&self, image: &'a [u8], index: usize) -> &'a [u8; ENTRY_BYTES] {
        let start = self.block_bytes() + ENTRY_BYTES * index;
        image[start..start + ENTRY_BYTES].try_into().expect("32 bytes were taken")
    }

    /// The same, to be written.
    #[inline]
    pub fn entry_mut<'a>(&self, image: &'a mut [u8], index: usize) -> &'a mut [u8; ENTRY_BYTES] {
        let start = self.block_bytes() + ENTRY_BYTES * index;
        (&mut image[start..start + ENTRY_BYTES]).try_into().expect("32 bytes were taken")
    }
}
