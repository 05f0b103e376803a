//! The two requests that create a file: ALLOC a contiguous one, OPENO a linked one.

use super::{require_protect, File};
use crate::pack::consistency::{examine, Pack};
use crate::pack::entry::{Entry, CONTIGUOUS, LINKED, OUTPUT};
use crate::pack::map;
use crate::refusal::{require, Refusal};

/// ALLOC: a closed contiguous file large enough for so many segments, "every block it takes all zero" (02 §2); answers its first block.
pub fn alloc(image: &mut [u8], caller: usize, file: File, protect: usize, segments: usize) -> Result<usize, Refusal> {
    let pack = examine(image)?;
    file.require_legal()?;
    require(segments != 0, Refusal::Argument)?;
    let protect = require_protect(protect)?;
    let index = require_new(image, &pack, caller, &file)?;
    let form = pack.form();
    let length = segments.div_ceil(form.segments);
    let first = pack.highest_free_run(length).ok_or(Refusal::NoRoom)?;
    let last = first + length - 1;
    Entry {
        kind: CONTIGUOUS,
        first: first as u16,
        length: length as u16,
        last: last as u16,
        ..new_entry(&file, caller, protect)
    }
    .write(form.entry_mut(image, index));
    for number in first..=last {
        form.block_mut(image, number).fill(0);
    }
    map::renew(image);
    Ok(first)
}

/// OPENO: "a new linked file of length 0, writer 2, readers 0".
pub fn openo(image: &mut [u8], caller: usize, file: File, protect: usize) -> Result<(), Refusal> {
    let pack = examine(image)?;
    file.require_legal()?;
    let protect = require_protect(protect)?;
    let index = require_new(image, &pack, caller, &file)?;
    let entry = Entry { kind: LINKED, writer: OUTPUT, ..new_entry(&file, caller, protect) };
    entry.write(pack.form().entry_mut(image, index));
    Ok(())
}

/// What creating asks of the file's owner and name; the entry that the file is to get.
fn require_new(image: &[u8], pack: &Pack, caller: usize, file: &File) -> Result<usize, Refusal> {
    require(pack.header.uics.contain(file.owner(caller)), Refusal::NoUser)?;
    require(file.find(image, pack, caller).is_none(), Refusal::Existence)?;
    require(file.owner(caller) == caller, Refusal::Right)?;
    pack.lowest_empty_entry(image).ok_or(Refusal::NoEntry)
}

/// What both kinds of new files have; the numbers are known to be words.
fn new_entry(file: &File, caller: usize, protect: u16) -> Entry {
    Entry {
        name1: file.name1 as u16,
        name2: file.name2 as u16,
        extension: file.extension as u16,
        uic: file.owner(caller) as u16,
        protect,
        kind: 0,
        first: 0,
        length: 0,
        last: 0,
        writer: 0,
        readers: 0,
    }
}
