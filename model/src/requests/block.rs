//! BLOCK input and output: one block of a contiguous file, by its place in the file.

use super::File;
use crate::pack::consistency::examine;
use crate::pack::entry::{CONTIGUOUS, UPDATE};
use crate::pack::rights::rights;
use crate::refusal::{require, Refusal};

/// BLOCK input: "needs read, and besides a reader or writer 1".
pub fn block_in(image: &[u8], caller: usize, file: File, place: usize, buffer: &mut [u8]) -> Result<(), Refusal> {
    let pack = examine(image)?;
    file.require_legal()?;
    require(buffer.len() == pack.form().block_bytes(), Refusal::Argument)?;
    let (_, found) = file.require(image, &pack, caller)?;
    require(rights(caller, &found).read, Refusal::Right)?;
    require(found.kind == CONTIGUOUS, Refusal::Kind)?;
    require(found.readers != 0 || found.writer == UPDATE, Refusal::NotOpen)?;
    require(place < found.length as usize, Refusal::NoBlock)?;
    buffer.copy_from_slice(pack.form().block(image, found.first as usize + place));
    Ok(())
}

/// BLOCK output: "needs write and writer 1, and changes the .. bytes of the image, starting at that block".
pub fn block_out(image: &mut [u8], caller: usize, file: File, place: usize, buffer: &[u8]) -> Result<(), Refusal> {
    let pack = examine(image)?;
    file.require_legal()?;
    require(buffer.len() == pack.form().block_bytes(), Refusal::Argument)?;
    let (_, found) = file.require(image, &pack, caller)?;
    require(rights(caller, &found).write, Refusal::Right)?;
    require(found.kind == CONTIGUOUS, Refusal::Kind)?;
    require(found.writer == UPDATE, Refusal::NotOpen)?;
    require(place < found.length as usize, Refusal::NoBlock)?;
    pack.form().block_mut(image, found.first as usize + place).copy_from_slice(buffer);
    Ok(())
}
