//! The requests on a lent image. Each tests the causes of a refusal in the order of 01's table, then acts in place.

pub mod append;
pub mod binary;
pub mod block;
pub mod creating;
pub mod directory;
pub mod finish;
pub mod format;
mod gather;
pub mod lines;
pub mod linked;
pub mod many;
pub mod moves;
pub mod opening;
pub mod owner;

pub use append::appnd;
pub use binary::{binary_read, binary_write};
pub use block::{block_in, block_out};
pub use creating::{alloc, openo};
pub use directory::{delet, keep, look, renam};
pub use finish::finish;
pub use format::format;
pub use lines::{line_end, line_read, line_write};
pub use linked::{linked_add, linked_read};
pub use many::many;
pub use moves::{to_form1, to_form2};
pub use opening::{close, opene, openi, openu};
pub use owner::owner;

use crate::pack::consistency::Pack;
use crate::pack::entry::{self, Entry};
use crate::pack::name;
use crate::refusal::{require, Refusal};

/// A file as a request names it. The numbers are any at all: nothing is cut to a word.
#[derive(Clone, Copy, Debug, PartialEq, Eq)]
pub struct File {
    pub name1: usize,
    pub name2: usize,
    pub extension: usize,
    pub uic: usize,
}

impl File {
    /// "UIC 0 in a request means the caller's."
    fn owner(&self, caller: usize) -> usize {
        if self.uic == 0 {
            caller
        } else {
            self.uic
        }
    }

    fn require_legal(&self) -> Result<(), Refusal> {
        require(name::is_name(self.name1, self.name2) && name::is_extension(self.extension), Refusal::Name)
    }

    /// The entry of the file, if there is one, and its number.
    fn find(&self, image: &[u8], pack: &Pack, caller: usize) -> Option<(usize, Entry)> {
        let mut key = [0; 8];
        let words = [self.name1, self.name2, self.extension, self.owner(caller)];
        for (bytes, number) in key.chunks_exact_mut(2).zip(words) {
            // No file has a number that is no word.
            bytes.copy_from_slice(&u16::try_from(number).ok()?.to_le_bytes());
        }
        // No legal name is 0, so an empty entry is never taken for the file.
        let key = u64::from_le_bytes(key);
        (0..pack.header.entries())
            .map(|index| (index, pack.form().entry(image, index)))
            .find(|(_, bytes)| entry::key(bytes) == key)
            .map(|(index, bytes)| (index, Entry::read(bytes)))
    }

    /// The same for a request that needs the file.
    fn require(&self, image: &[u8], pack: &Pack, caller: usize) -> Result<(usize, Entry), Refusal> {
        self.find(image, pack, caller).ok_or(Refusal::Existence)
    }
}

/// "protect above 255".
fn require_protect(protect: usize) -> Result<u16, Refusal> {
    require(protect <= 255, Refusal::Argument)?;
    Ok(protect as u16)
}
