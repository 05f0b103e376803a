//! Linked read and linked add: one block's payload of a linked file.

use super::File;
use crate::pack::consistency::{examine, Pack};
use crate::pack::entry::{Entry, EXTEND, FIRST, LAST, LENGTH, LINKED, OUTPUT};
use crate::pack::form::Form;
use crate::pack::map;
use crate::pack::rights::rights;
use crate::refusal::{require, Refusal};
use crate::words::set_word;

/// Linked read: a buffer of a payload, "read right, a reader"; places are counted from 0 along the chain.
pub fn linked_read(image: &[u8], caller: usize, file: File, place: usize, buffer: &mut [u8]) -> Result<(), Refusal> {
    let pack = examine(image)?;
    file.require_legal()?;
    require(buffer.len() == pack.form().payload_bytes(), Refusal::Argument)?;
    let found = require_readable(image, &pack, caller, &file)?;
    require(place < found.length as usize, Refusal::NoBlock)?;
    let form = pack.form();
    let number = (0..place).fold(found.first as usize, |number, _| form.link(image, number));
    buffer.copy_from_slice(form.payload(image, number));
    Ok(())
}

/// Linked add: "the highest free block is joined at the end with link 0"; answers that block.
pub fn linked_add(image: &mut [u8], caller: usize, file: File, payload: &[u8]) -> Result<usize, Refusal> {
    let pack = examine(image)?;
    file.require_legal()?;
    require(payload.len() == pack.form().payload_bytes(), Refusal::Argument)?;
    let index = require_writable(image, &pack, caller, &file)?;
    let added = pack.free().next().ok_or(Refusal::NoRoom)?;
    join(pack.form(), image, index, added, payload);
    map::renew(image);
    Ok(added)
}

/// A linked file that is there, is open to be read, and may be read by the caller.
pub(super) fn require_readable(image: &[u8], pack: &Pack, caller: usize, file: &File) -> Result<Entry, Refusal> {
    let (_, found) = file.require(image, pack, caller)?;
    require(rights(caller, &found).read, Refusal::Right)?;
    require(found.kind == LINKED, Refusal::Kind)?;
    require(found.readers != 0, Refusal::NotOpen)?;
    Ok(found)
}

/// The number of the entry of a linked file that is there, has a writer, and may be written by the caller.
pub(super) fn require_writable(image: &[u8], pack: &Pack, caller: usize, file: &File) -> Result<usize, Refusal> {
    let (index, found) = file.require(image, pack, caller)?;
    require(rights(caller, &found).write, Refusal::Right)?;
    require(found.kind == LINKED, Refusal::Kind)?;
    require(matches!(found.writer, OUTPUT | EXTEND), Refusal::NotOpen)?;
    Ok(index)
}

/// Joins a free block with its payload to the end of the linked file of an entry. The map is left to be made anew.
pub(super) fn join(form: Form, image: &mut [u8], index: usize, added: usize, payload: &[u8]) {
    let found = Entry::read(form.entry(image, index));
    let number = added as u16;
    let body = form.block_mut(image, added);
    set_word(body, 0, 0);
    body[2..].copy_from_slice(payload);
    if found.length == 0 {
        // An empty file has no last block; its number 0 there is not a link to be written.
        set_word(form.entry_mut(image, index), FIRST, number);
    } else {
        set_word(form.block_mut(image, found.last as usize), 0, number);
    }
    let bytes = form.entry_mut(image, index);
    set_word(bytes, LENGTH, found.length + 1);
    set_word(bytes, LAST, number);
}
