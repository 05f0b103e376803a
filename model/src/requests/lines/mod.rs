//! Line input and output (02, §1): "the formatted ASCII normal and special modes of document 000 (2.8.5.8), without
//! parity, over linked files".

mod read;
mod write;

pub use read::{line_read, Read};
pub use write::{line_end, line_write, Written};

use crate::refusal::Refusal;

const NUL: u8 = 0;
const TAB: u8 = 0o11;
const LINE_FEED: u8 = 0o12;
const VERTICAL_TAB: u8 = 0o13;
const FORM_FEED: u8 = 0o14;
const RUBOUT: u8 = 0o177;

/// Bit 0 of the status: the line is not valid (000, 2.8.5.7).
pub const INVALID_LINE: usize = 1;
/// Bit 6 of the status: the file ended.
pub const END_OF_FILE: usize = 1 << 6;

/// The two modes, by their numbers at the C boundary.
#[derive(Clone, Copy, PartialEq, Eq)]
pub(super) enum Mode {
    Normal,
    Special,
}

impl Mode {
    pub(super) fn require(mode: usize) -> Result<Mode, Refusal> {
        match mode {
            0 => Ok(Mode::Normal),
            1 => Ok(Mode::Special),
            _ => Err(Refusal::Argument),
        }
    }
}

/// "LINE FEED, VERTICAL TAB or FORM FEED".
#[inline]
fn is_terminator(character: u8) -> bool {
    matches!(character, LINE_FEED | VERTICAL_TAB | FORM_FEED)
}
