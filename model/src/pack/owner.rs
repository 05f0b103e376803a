//! Whose a block is: what the audit note asks of the service, for every block.

use super::consistency::Pack;
use super::entry::{Entry, CONTIGUOUS};
use super::form::Form;

#[derive(Clone, Copy, Debug, PartialEq, Eq)]
pub enum Owner {
    System,
    Free,
    Held { entry: usize, place: usize },
}

/// The owner of a block below n.
pub fn owner(image: &[u8], pack: &Pack, block: usize) -> Owner {
    if block < pack.header.bodies().start {
        return Owner::System;
    }
    if pack.is_free(block) {
        return Owner::Free;
    }
    (0..pack.header.entries())
        .find_map(|index| Some(Owner::Held { entry: index, place: place(pack.form(), image, index, block)? }))
        .expect("a block that is not free is some file's")
}

/// The place of a block in the file of an entry, if the file has it.
fn place(form: Form, image: &[u8], index: usize, block: usize) -> Option<usize> {
    let file = Entry::read(form.entry(image, index));
    let (first, length) = (file.first as usize, file.length as usize);
    if file.kind == CONTIGUOUS {
        return block.checked_sub(first).filter(|&place| place < length);
    }
    let mut at = first;
    for place in 0..length {
        if at == block {
            return Some(place);
        }
        at = form.link(image, at);
    }
    None
}
