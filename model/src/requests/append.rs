//! APPND: "chain joined, second entry cleared. Either may be empty".

use super::File;
use crate::pack::consistency::examine;
use crate::pack::entry::{FIRST, LAST, LENGTH, LINKED};
use crate::pack::rights::rights;
use crate::refusal::{require, Refusal};
use crate::words::set_word;

/// Joins the second file to the end of the first.
pub fn appnd(image: &mut [u8], caller: usize, first: File, second: File) -> Result<(), Refusal> {
    let pack = examine(image)?;
    first.require_legal()?;
    second.require_legal()?;
    // "APPND of a file to itself", be there such a file or not.
    let named = |file: &File| (file.name1, file.name2, file.extension, file.owner(caller));
    require(named(&first) != named(&second), Refusal::Argument)?;
    let (first_index, first) = first.require(image, &pack, caller)?;
    let (second_index, second) = second.require(image, &pack, caller)?;
    require(rights(caller, &first).write && rights(caller, &second).delete, Refusal::Right)?;
    require(first.kind == LINKED && second.kind == LINKED, Refusal::Kind)?;
    require(!first.is_open() && !second.is_open(), Refusal::Open)?;

    let form = pack.form();
    form.entry_mut(image, second_index).fill(0);
    if second.length == 0 {
        return Ok(());
    }
    if first.length == 0 {
        // An empty file has no last block; its number 0 there is not a link to be written.
        set_word(form.entry_mut(image, first_index), FIRST, second.first);
    } else {
        set_word(form.block_mut(image, first.last as usize), 0, second.first);
    }
    let bytes = form.entry_mut(image, first_index);
    set_word(bytes, LENGTH, first.length + second.length);
    set_word(bytes, LAST, second.last);
    Ok(())
}
