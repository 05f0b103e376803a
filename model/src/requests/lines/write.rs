//! Line output: text that is gathered in a lent buffer, of which each full one becomes a block of the file.

use super::{is_terminator, Mode, FORM_FEED, INVALID_LINE, NUL, RUBOUT, TAB};
use crate::pack::consistency::examine;
use crate::pack::map;
use crate::refusal::Refusal;
use crate::requests::gather::{require_gather, require_room, Gather};
use crate::requests::linked::{join, require_writable};
use crate::requests::File;

/// What was written: the characters taken, the status, and how far the gather buffer is filled.
#[derive(Clone, Copy, Debug, PartialEq, Eq)]
pub struct Written {
    pub count: usize,
    pub status: usize,
    pub filled: usize,
}

/// Writes text. "Refusals: those of linked .. add; 41 also for .. a filled count" that is too large.
pub fn line_write(
    image: &mut [u8],
    caller: usize,
    file: File,
    mode: usize,
    text: &[u8],
    gather: &mut [u8],
    filled: usize,
) -> Result<Written, Refusal> {
    let pack = examine(image)?;
    file.require_legal()?;
    let mode = Mode::require(mode)?;
    require_gather(&pack, gather, filled)?;
    let index = require_writable(image, &pack, caller, &file)?;
    // "Normal mode writes all it is given, special stops after the first terminator;"
    let taken = match mode {
        Mode::Normal => text,
        Mode::Special => text.split_inclusive(|&character| is_terminator(character)).next().unwrap_or(text),
    };
    let more = taken.iter().filter(|&&character| put_after(character).is_some()).count();
    require_room(&pack, gather, filled, taken.len() + more)?;

    let mut gathering = Gather::new(image, &pack, index, gather, filled, pack.free());
    for part in taken.split_inclusive(|&character| put_after(character).is_some()) {
        gathering.put(part);
        if let Some(byte) = part.last().and_then(|&character| put_after(character)) {
            gathering.put(&[byte]);
        }
    }
    let filled = gathering.filled;
    map::renew(image);
    // "both return the count taken, and bit 0 says that its last character was none, or that it is 0."
    let terminated = taken.last().is_some_and(|&character| is_terminator(character));
    Ok(Written { count: taken.len(), status: if terminated { 0 } else { INVALID_LINE }, filled })
}

/// Ends the writing: "an ending call fills the last with NUL, or adds none at 0."
pub fn line_end(image: &mut [u8], caller: usize, file: File, gather: &mut [u8], filled: usize) -> Result<(), Refusal> {
    let pack = examine(image)?;
    file.require_legal()?;
    require_gather(&pack, gather, filled)?;
    let index = require_writable(image, &pack, caller, &file)?;
    if filled == 0 {
        return Ok(());
    }
    let added = pack.free().next().ok_or(Refusal::NoRoom)?;
    gather[filled..].fill(NUL);
    join(pack.form(), image, index, added, gather);
    map::renew(image);
    Ok(())
}

/// "It puts one RUBOUT after TAB and one NUL after FORM FEED."
#[inline]
fn put_after(character: u8) -> Option<u8> {
    match character {
        TAB => Some(RUBOUT),
        FORM_FEED => Some(NUL),
        _ => None,
    }
}
