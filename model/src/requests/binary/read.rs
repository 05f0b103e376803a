//! Reading a binary line, or a part of one, from a byte position on.

use super::{FIRST_WORD, HEADER, MOST_DATA, WRONG_FORMAT, WRONG_SUM};
use crate::pack::consistency::examine;
use crate::pack::entry::Entry;
use crate::pack::form::Form;
use crate::refusal::{require, Refusal};
use crate::requests::lines::{Mode, END_OF_FILE, INVALID_LINE};
use crate::requests::linked::require_readable;
use crate::requests::File;

/// What was read: the data bytes counted, the status, where the next read starts, and what is then passed in again.
#[derive(Clone, Copy, Debug, PartialEq, Eq)]
pub struct BinaryRead {
    pub count: usize,
    pub status: usize,
    pub position: usize,
    pub to_come: usize,
    pub sum: usize,
}

/// Reads a line. "Refusals: as §1; 41 also for .. a length to come over 511, a sum over 255, or one not 0 with nothing to
/// come."
#[allow(clippy::too_many_arguments)]
pub fn binary_read(
    image: &[u8],
    caller: usize,
    file: File,
    mode: usize,
    position: usize,
    to_come: usize,
    sum: usize,
    buffer: &mut [u8],
) -> Result<BinaryRead, Refusal> {
    let pack = examine(image)?;
    file.require_legal()?;
    let mode = Mode::require(mode)?;
    require(!buffer.is_empty(), Refusal::Argument)?;
    require(to_come < MOST_DATA && sum <= 255 && (sum == 0 || to_come != 0), Refusal::Argument)?;
    let found = require_readable(image, &pack, caller, &file)?;
    let form = pack.form();
    require(position <= form.payload_bytes() * found.length as usize, Refusal::NoBlock)?;

    let mut bytes = Bytes::from(image, form, &found, position);
    if to_come != 0 {
        return Ok(data(&mut bytes, mode, to_come, sum, buffer));
    }
    // "0 and 0 for a new line."
    match header(&mut bytes) {
        Ok((to_come, sum)) => Ok(data(&mut bytes, mode, to_come, sum, buffer)),
        // "where nothing is laid down and the position stays;"
        Err(WRONG_FORMAT) => Ok(BinaryRead { count: 0, status: WRONG_FORMAT, position, to_come: 0, sum: 0 }),
        // "with the position at the end and nothing to come."
        Err(status) => Ok(BinaryRead { count: 0, status, position: bytes.position, to_come: 0, sum: 0 }),
    }
}

/// Skips NULs and takes the header: how many data bytes follow, and the sum of its own bytes. An error is the status:
/// "bit 6 the data ending first, even inside a header word (then not bit 2)", so that a word is judged when it is whole.
fn header(bytes: &mut Bytes) -> Result<(usize, usize), usize> {
    // "NULs before a line are skipped."
    let low = bytes.find(|&byte| byte != 0).ok_or(END_OF_FILE)?;
    let mut next = || bytes.next().ok_or(END_OF_FILE);
    if [low, next()?] != FIRST_WORD {
        return Err(WRONG_FORMAT);
    }
    let word = [next()?, next()?];
    let data = (u16::from_le_bytes(word) as usize).checked_sub(HEADER).ok_or(WRONG_FORMAT)?;
    if data > MOST_DATA {
        return Err(WRONG_FORMAT);
    }
    Ok((data, FIRST_WORD.iter().chain(&word).map(|&byte| byte as usize).sum()))
}

/// Takes the data that are to come, or as many of them as the mode takes.
fn data(bytes: &mut Bytes, mode: Mode, to_come: usize, mut sum: usize, buffer: &mut [u8]) -> BinaryRead {
    let maximum = buffer.len();
    // "normal lays surplus bytes over the last, counts them and verifies, special keeps the rest".
    let most = if mode == Mode::Special { to_come.min(maximum) } else { to_come };
    let mut count = 0;
    for byte in bytes.by_ref().take(most) {
        buffer[count.min(maximum - 1)] = byte;
        count += 1;
        sum += byte as usize;
    }
    // "a short buffer sets bit 0;"
    let short = maximum < to_come && maximum <= count;
    if short && mode == Mode::Special {
        // "and does not verify until its last part is read; the length still to come and the sum so far are given back".
        let (to_come, sum) = (to_come - count, sum % 256);
        return BinaryRead { count, status: INVALID_LINE, position: bytes.position, to_come, sum };
    }
    let last = match bytes.next() {
        None => END_OF_FILE,
        Some(byte) if (sum + byte as usize) % 256 == 0 => 0,
        Some(_) => WRONG_SUM,
    };
    let status = if short { INVALID_LINE | last } else { last };
    BinaryRead { count, status, position: bytes.position, to_come: 0, sum: 0 }
}

/// The bytes of "the file's payloads, joined" (02, §1), from a position on.
struct Bytes<'a> {
    image: &'a [u8],
    form: Form,
    /// The block of the next byte.
    number: usize,
    position: usize,
    end: usize,
}

impl<'a> Bytes<'a> {
    fn from(image: &'a [u8], form: Form, found: &Entry, position: usize) -> Bytes<'a> {
        let before = position / form.payload_bytes();
        let number = (0..before).fold(found.first as usize, |number, _| form.link(image, number));
        Bytes { image, form, number, position, end: form.payload_bytes() * found.length as usize }
    }
}

impl Iterator for Bytes<'_> {
    type Item = u8;

    fn next(&mut self) -> Option<u8> {
        if self.position == self.end {
            return None;
        }
        let place = self.position % self.form.payload_bytes();
        let byte = self.form.payload(self.image, self.number)[place];
        self.position += 1;
        if place + 1 == self.form.payload_bytes() {
            self.number = self.form.link(self.image, self.number);
        }
        Some(byte)
    }
}
