//! Line input: a line from a byte position on, laid in a lent buffer.

use super::{is_terminator, Mode, END_OF_FILE, INVALID_LINE, NUL, RUBOUT};
use crate::pack::consistency::examine;
use crate::refusal::{require, Refusal};
use crate::requests::linked::require_readable;
use crate::requests::File;

/// What was read: the characters counted, the status, and where the next read starts.
#[derive(Clone, Copy, Debug, PartialEq, Eq)]
pub struct Read {
    pub count: usize,
    pub status: usize,
    pub position: usize,
}

/// Reads a line. "Refusals: those of linked read ..; 41 also for a maximum count of 0 ..; 44 for a position beyond the
/// payloads."
pub fn line_read(
    image: &[u8],
    caller: usize,
    file: File,
    mode: usize,
    position: usize,
    buffer: &mut [u8],
) -> Result<Read, Refusal> {
    let pack = examine(image)?;
    file.require_legal()?;
    let mode = Mode::require(mode)?;
    require(!buffer.is_empty(), Refusal::Argument)?;
    let found = require_readable(image, &pack, caller, &file)?;
    let form = pack.form();
    let end = form.payload_bytes() * found.length as usize;
    require(position <= end, Refusal::NoBlock)?;

    // "Reading starts at a byte position in the file's payloads, joined, and returns the next position."
    let mut line = Line { mode, buffer, count: 0, status: 0 };
    let mut position = position;
    let before = position / form.payload_bytes();
    let mut number = (0..before).fold(found.first as usize, |number, _| form.link(image, number));
    while position < end {
        let rest = &form.payload(image, number)[position % form.payload_bytes()..];
        if let Some(used) = line.take(rest) {
            return Ok(Read { count: line.count, status: line.status, position: position + used });
        }
        position += rest.len();
        number = form.link(image, number);
    }
    // "Bit 6 means the file ended before a terminator; normal mode may set both."
    Ok(Read { count: line.count, status: line.status | END_OF_FILE, position })
}

/// A line as far as it was read.
struct Line<'a> {
    mode: Mode,
    buffer: &'a mut [u8],
    count: usize,
    status: usize,
}

impl Line<'_> {
    /// Takes bytes of the file until the transfer ends, and then says how many; `None` if it goes on behind them all.
    fn take(&mut self, bytes: &[u8]) -> Option<usize> {
        let maximum = self.buffer.len();
        for (place, byte) in bytes.iter().enumerate() {
            // "It clears bit 7 of each byte, discards NUL and RUBOUT,"
            let character = byte & 0o177;
            if matches!(character, NUL | RUBOUT) {
                continue;
            }
            // ".. normal mode lays each surplus byte over the last one and counts it,"
            self.buffer[self.count.min(maximum - 1)] = character;
            self.count += 1;
            // "and ends after LINE FEED, VERTICAL TAB or FORM FEED."
            if is_terminator(character) {
                return Some(place + 1);
            }
            // "If the maximum count, the lent buffer's length, comes first, status bit 0 is set: .. special mode stops
            // and keeps the rest for the next read."
            if self.count >= maximum {
                self.status = INVALID_LINE;
                if self.mode == Mode::Special {
                    return Some(place + 1);
                }
            }
        }
        None
    }
}
