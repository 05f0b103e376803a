//! The requests that only concern what the contents say of one file: LOOK, KEEP, DELET, RENAM.

use super::{require_protect, File};
use crate::pack::consistency::examine;
use crate::pack::entry::{Entry, EXTENSION, NAME1, NAME2, PROTECT};
use crate::pack::map;
use crate::pack::rights::rights;
use crate::refusal::{require, Refusal};
use crate::words::set_word;

/// LOOK: what the entry says; "no right needed".
pub fn look(image: &[u8], caller: usize, file: File) -> Result<Entry, Refusal> {
    let pack = examine(image)?;
    file.require_legal()?;
    let (_, found) = file.require(image, &pack, caller)?;
    Ok(found)
}

/// KEEP: "owner only; sets bit 7".
pub fn keep(image: &mut [u8], caller: usize, file: File) -> Result<(), Refusal> {
    let pack = examine(image)?;
    file.require_legal()?;
    let (index, found) = file.require(image, &pack, caller)?;
    require(caller == found.uic as usize, Refusal::Right)?;
    set_word(pack.form().entry_mut(image, index), PROTECT, found.protect | 0o200);
    Ok(())
}

/// DELET: "clears the entry, bodies untouched".
pub fn delet(image: &mut [u8], caller: usize, file: File) -> Result<(), Refusal> {
    let pack = examine(image)?;
    file.require_legal()?;
    let (index, found) = file.require(image, &pack, caller)?;
    require(rights(caller, &found).delete, Refusal::Right)?;
    require(!found.is_open(), Refusal::Open)?;
    pack.form().entry_mut(image, index).fill(0);
    map::renew(image);
    Ok(())
}

/// RENAM: "changes name, extension and protect code; the UIC stays". The UIC in `new` serves for nothing.
pub fn renam(image: &mut [u8], caller: usize, old: File, new: File, protect: usize) -> Result<(), Refusal> {
    let pack = examine(image)?;
    old.require_legal()?;
    new.require_legal()?;
    let protect = require_protect(protect)?;
    let (index, found) = old.require(image, &pack, caller)?;
    // "The same name again is refused with 2": then the file itself is found.
    let new = File { uic: found.uic as usize, ..new };
    require(new.find(image, &pack, caller).is_none(), Refusal::Existence)?;
    require(rights(caller, &found).write, Refusal::Right)?;
    require(!found.is_open(), Refusal::Open)?;

    let bytes = pack.form().entry_mut(image, index);
    set_word(bytes, NAME1, new.name1 as u16);
    set_word(bytes, NAME2, new.name2 as u16);
    set_word(bytes, EXTENSION, new.extension as u16);
    set_word(bytes, PROTECT, protect);
    Ok(())
}
