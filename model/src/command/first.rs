//! CSI1: "drops blank, TAB, NUL and RUBOUT from the lent line and writes the rest to the start of a lent buffer".

use super::{not_in_grammar, reading, MOST_CONDENSED};
use crate::refusal::{require, LineRefusal, Refusal};

/// The most characters of a line as it is lent.
const MOST_RAW: usize = 512;

/// Condenses a line; answers the condensed length.
pub fn csi1(line: &[u8], buffer: &mut [u8]) -> Result<usize, LineRefusal> {
    require(line.len() <= MOST_RAW, Refusal::LineLong)?;
    let mut condensed = [0; MOST_CONDENSED];
    let mut length = 0;
    for &character in line.iter().filter(|&&character| !is_dropped(character)) {
        *condensed.get_mut(length).ok_or(Refusal::LineLong)? = character;
        length += 1;
    }
    let condensed = &condensed[..length];
    let written = buffer.get_mut(..length).ok_or(Refusal::BufferShort)?;
    let bounded = reading::read(condensed, |_, _, _| ()).ok_or_else(|| not_in_grammar(condensed))?;
    require(bounded, Refusal::Number)?;
    written.copy_from_slice(condensed);
    Ok(length)
}

fn is_dropped(character: u8) -> bool {
    const TAB: u8 = 0o11;
    const NUL: u8 = 0;
    const RUBOUT: u8 = 0o177;
    matches!(character, b' ' | TAB | NUL | RUBOUT)
}
