//! Whether an image is a consistent pack, and which blocks its files hold.

use super::blocks::BlockSet;
use super::entry::{self, Entry, CONTIGUOUS, EXTEND, LINKED, MOST_OPENS, OUTPUT, UPDATE};
use super::form::{Form, ENTRY_BYTES};
use super::header::Header;
use super::{map, name};
use crate::refusal::Refusal;
use crate::words::word;

/// What is known of a consistent image.
pub struct Pack {
    pub header: Header,
    held: BlockSet,
}

impl Pack {
    pub fn form(&self) -> Form {
        self.header.form
    }

    /// "Free: above c and in no file." Where there is a map, above that (02, §7).
    pub fn is_free(&self, block: usize) -> bool {
        self.header.bodies().contains(&block) && !self.held.contains(block)
    }

    /// The blocks that are free, the highest first.
    pub fn free(&self) -> impl Iterator<Item = usize> + '_ {
        self.header.bodies().rev().filter(|&block| !self.held.contains(block))
    }

    /// The highest start of so many free blocks in a row.
    pub fn highest_free_run(&self, blocks: usize) -> Option<usize> {
        let mut run = 0;
        for block in self.header.bodies().rev() {
            run = if self.held.contains(block) { 0 } else { run + 1 };
            if run == blocks {
                return Some(block);
            }
        }
        None
    }

    /// The lowest empty entry.
    pub fn lowest_empty_entry(&self, image: &[u8]) -> Option<usize> {
        (0..self.header.entries()).find(|&index| entry::is_empty(self.form().entry(image, index)))
    }
}

/// Takes an image for a pack, or refuses it as not consistent.
pub fn examine(image: &[u8]) -> Result<Pack, Refusal> {
    // "Consistent now includes that the map agrees, checked last" (02, §7).
    walk(image).filter(|pack| map::agrees(image, pack)).ok_or(Refusal::Inconsistent)
}

/// Takes an image for a pack if all is right but for the map, which is not looked at.
pub fn walk(image: &[u8]) -> Option<Pack> {
    let header = Header::read(image)?;
    let mut held = BlockSet::new(header.blocks);
    let mut keys = Vec::with_capacity(header.entries());
    for index in 0..header.entries() {
        let bytes = header.form.entry(image, index);
        if entry::is_empty(bytes) {
            continue;
        }
        let file = Entry::read(bytes);
        if !is_file(&header, bytes, &file) || !holds_its_blocks(image, &header, &file, &mut held) {
            return None;
        }
        keys.push(entry::key(bytes));
    }
    // "differ in name, extension or UIC": two alike would stand side by side.
    keys.sort_unstable();
    let differ = keys.windows(2).all(|pair| pair[0] != pair[1]);
    differ.then_some(Pack { header, held })
}

/// What an entry must be apart from its blocks.
fn is_file(header: &Header, bytes: &[u8; ENTRY_BYTES], file: &Entry) -> bool {
    name::is_name(file.name1 as usize, file.name2 as usize)
        && name::is_extension(file.extension as usize)
        && header.uics.contain(file.uic as usize)
        && file.protect <= 255
        && match file.kind {
            CONTIGUOUS => matches!(file.writer, 0 | UPDATE),
            LINKED => matches!(file.writer, 0 | OUTPUT | EXTEND),
            _ => false,
        }
        && file.opens() <= MOST_OPENS as u32
        && (11..16).all(|index| word(bytes, index) == 0)
}

/// Puts the blocks of a file among those that are held; false if one is no body or is held already, or if the three
/// numbers of the entry do not say what is there.
fn holds_its_blocks(image: &[u8], header: &Header, file: &Entry, held: &mut BlockSet) -> bool {
    let (first, length, last) = (file.first as usize, file.length as usize, file.last as usize);
    let bodies = header.bodies();
    if file.kind == CONTIGUOUS {
        return length >= 1
            && bodies.contains(&first)
            && bodies.contains(&last)
            && last + 1 == first + length
            && (first..=last).all(|block| held.insert(block));
    }
    if length == 0 {
        return first == 0 && last == 0;
    }
    // A chain that comes back to one of its own blocks meets it as held; so this ends, and the blocks are distinct.
    let mut block = first;
    for place in 0..length {
        if !bodies.contains(&block) || !held.insert(block) {
            return false;
        }
        if place + 1 < length {
            block = header.form.link(image, block);
        }
    }
    block == last && header.form.link(image, last) == 0
}
