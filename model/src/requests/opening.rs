//! Opens of files that are there, and how they are taken away: OPENI, OPENU, OPENE, CLOSE.

use super::File;
use crate::pack::consistency::{examine, Pack};
use crate::pack::entry::{Entry, CONTIGUOUS, EXTEND, INPUT, LINKED, MOST_OPENS, OUTPUT, READERS, UPDATE, WRITER};
use crate::pack::rights::rights;
use crate::refusal::{require, Refusal};
use crate::words::set_word;

/// OPENI: "needs read, adds a reader".
pub fn openi(image: &mut [u8], caller: usize, file: File) -> Result<(), Refusal> {
    let pack = examine(image)?;
    let (index, found) = require_openable(image, &pack, caller, &file)?;
    require(rights(caller, &found).read, Refusal::Right)?;
    require_opens(&found)?;
    set_word(pack.form().entry_mut(image, index), READERS, found.readers + 1);
    Ok(())
}

/// OPENU: "needs write, contiguous only (43), writer 1".
pub fn openu(image: &mut [u8], caller: usize, file: File) -> Result<(), Refusal> {
    let pack = examine(image)?;
    let (index, found) = require_openable(image, &pack, caller, &file)?;
    require(rights(caller, &found).write, Refusal::Right)?;
    require(found.kind == CONTIGUOUS, Refusal::Kind)?;
    require(found.writer == 0, Refusal::Writer)?;
    require_opens(&found)?;
    set_word(pack.form().entry_mut(image, index), WRITER, UPDATE);
    Ok(())
}

/// OPENE: "needs write, writer 3"; a contiguous file has the code 5.
pub fn opene(image: &mut [u8], caller: usize, file: File) -> Result<(), Refusal> {
    let pack = examine(image)?;
    let (index, found) = require_openable(image, &pack, caller, &file)?;
    require(rights(caller, &found).write, Refusal::Right)?;
    require(found.kind == LINKED, Refusal::NotLinked)?;
    require(found.writer == 0, Refusal::Writer)?;
    require_opens(&found)?;
    set_word(pack.form().entry_mut(image, index), WRITER, EXTEND);
    Ok(())
}

/// CLOSE: "takes that open away; no right needed".
pub fn close(image: &mut [u8], caller: usize, file: File, mode: usize) -> Result<(), Refusal> {
    let pack = examine(image)?;
    file.require_legal()?;
    require((1..=4).contains(&mode), Refusal::Argument)?;
    let (index, found) = file.require(image, &pack, caller)?;
    let bytes = pack.form().entry_mut(image, index);
    if mode == INPUT as usize {
        require(found.readers != 0, Refusal::NotOpen)?;
        set_word(bytes, READERS, found.readers - 1);
    } else {
        require(found.writer as usize == mode, Refusal::NotOpen)?;
        set_word(bytes, WRITER, 0);
    }
    Ok(())
}

/// The file that one of the three opens is to open. "OPENI, OPENE, OPENU also: writer is 2" (01, code 2).
fn require_openable(image: &[u8], pack: &Pack, caller: usize, file: &File) -> Result<(usize, Entry), Refusal> {
    file.require_legal()?;
    let (index, found) = file.require(image, pack, caller)?;
    require(found.writer != OUTPUT, Refusal::Existence)?;
    Ok((index, found))
}

/// "62 opens already".
fn require_opens(found: &Entry) -> Result<(), Refusal> {
    require(found.opens() < MOST_OPENS as u32, Refusal::Opens)
}
