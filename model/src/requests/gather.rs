//! Bytes that are gathered in a lent buffer, of which each full one becomes a block of a linked file (02, §1 and §10).

use super::linked::join;
use crate::pack::consistency::Pack;
use crate::refusal::{require, Refusal};

/// A lent buffer of a payload, "whose filled count" is less than that: in each form "filled to" (02, §11) one byte fewer.
pub(super) fn require_gather(pack: &Pack, gather: &[u8], filled: usize) -> Result<(), Refusal> {
    let payload = pack.form().payload_bytes();
    require(gather.len() == payload && filled < payload, Refusal::Argument)
}

/// "A write whose full blocks have no room is refused whole": room for so many bytes more.
pub(super) fn require_room(pack: &Pack, gather: &[u8], filled: usize, bytes: usize) -> Result<(), Refusal> {
    let full = (filled + bytes) / gather.len();
    require(pack.free().take(full).count() == full, Refusal::NoRoom)
}

/// A gather buffer while it is written to, and the file to which full blocks go: "Writing gathers a block's payload in a
/// lent .. buffer, .. and adds full blocks;".
pub(super) struct Gather<'a, F> {
    image: &'a mut [u8],
    pack: &'a Pack,
    index: usize,
    buffer: &'a mut [u8],
    pub(super) filled: usize,
    free: F,
}

impl<'a, F: Iterator<Item = usize>> Gather<'a, F> {
    /// Of the file of an entry. There is room for all that is put.
    pub(super) fn new(
        image: &'a mut [u8],
        pack: &'a Pack,
        index: usize,
        buffer: &'a mut [u8],
        filled: usize,
        free: F,
    ) -> Gather<'a, F> {
        Gather { image, pack, index, buffer, filled, free }
    }

    /// Lays bytes one after another, and adds a block each time it is full.
    pub(super) fn put(&mut self, mut bytes: &[u8]) {
        while !bytes.is_empty() {
            let (now, later) = bytes.split_at(bytes.len().min(self.buffer.len() - self.filled));
            self.buffer[self.filled..self.filled + now.len()].copy_from_slice(now);
            self.filled += now.len();
            bytes = later;
            if self.filled == self.buffer.len() {
                let added = self.free.next().expect("there is room for all");
                join(self.pack.form(), self.image, self.index, added, self.buffer);
                self.filled = 0;
            }
        }
    }
}
