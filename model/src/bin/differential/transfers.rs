//! The calls that carry bytes between a file and a buffer: blocks, payloads, and lines of text (02, §1).

use crate::call::Numbers;
use crate::files::{length, old_file};
use crate::packs::Seen;
use crate::random::Random;
use crate::request::Request;
use crate::text::{taking, TERMINATORS};
use crate::wrong::{device_block, transfer_buffer, HUGE};
use model::pack::entry::{Entry, CONTIGUOUS, EXTEND, LINKED, OUTPUT, UPDATE};
use model::pack::form::Form;
use model::requests::line_read;

/// A transfer of a block or of a payload, and the buffer for it.
pub fn transferring(random: &mut Random, request: Request, seen: &Seen) -> (Numbers, Vec<u8>) {
    let (caller, file) = old_file(random, seen, |file| match request {
        Request::LinkedRead => is_readable(file),
        Request::LinkedAdd => is_writable(file),
        _ => file.kind == CONTIGUOUS && (file.writer == UPDATE || file.readers != 0),
    });
    let blocks = matches!(request, Request::BlockIn | Request::BlockOut);
    let size = if blocks { seen.form.block_bytes() } else { seen.form.payload_bytes() };
    let buffer = transfer_buffer(random, seen.form, size);
    let numbers = match request {
        Request::LinkedAdd => Numbers::File { caller, file },
        _ => Numbers::Place { caller, file, place: place(random, length(seen, &file)) },
    };
    (numbers, buffer)
}

/// A read of a line, and the buffer for it.
pub fn reading(random: &mut Random, seen: &Seen, image: &[u8]) -> (Numbers, Vec<u8>) {
    let longest = seen.files.iter().filter(|file| is_readable(file)).map(|file| file.length).max().unwrap_or(0);
    let least = if random.chance(1, 3) { longest } else { 0 };
    let (caller, file) = old_file(random, seen, |file| is_readable(file) && file.length >= least);
    let mode = mode(random);
    let position = position(random, seen.form, length(seen, &file));
    // The count of the line itself is of interest, and those beside it.
    let count = line_read(image, caller, file, mode, position, &mut [0; 2000]).map_or(0, |read| read.count);
    let maximum = match random.below(10) {
        0 => random.pick(&[0, 1]),
        1..=3 => random.between(1, 8),
        4 => random.between(1, 140),
        5 => near_full(random, seen.form),
        _ => (count + random.below(3)).saturating_sub(1).clamp(1, 2000),
    };
    (Numbers::Reading { caller, file, mode, position }, random.bytes(maximum))
}

/// A write of text, and the gather buffer.
pub fn writing(random: &mut Random, seen: &Seen) -> (Numbers, Vec<u8>, Vec<u8>) {
    let (caller, file) = old_file(random, seen, is_writable);
    let payload = seen.form.payload_bytes();
    let (mode, filled) = (mode(random), filled(random, seen.form));
    let most = if random.chance(1, 2) { seen.free() } else { seen.free().min(20) };
    let blocks = match random.below(4) {
        0 => 1,
        1 => random.between(1, 4),
        // All the room there is, or a block more.
        _ => most + random.below(2),
    };
    let bytes = match random.below(32) {
        0..=3 => 0,
        4..=11 => random.between(1, 4),
        12..=19 => random.between(1, 140),
        // So that a count of bytes or of blocks would have low bits that are good.
        20 => random.pick(&[65536, payload * 256]) + random.below(payload),
        // So that the gather buffer gets full exactly, or nearly so.
        _ => (payload * blocks + random.below(3)).saturating_sub(filled).saturating_sub(1),
    };
    let mut text = taking(random, bytes);
    if let Some(last) = text.last_mut().filter(|_| random.chance(1, 3)) {
        *last = random.pick(TERMINATORS);
    }
    (Numbers::Writing { caller, file, mode, filled }, text, transfer_buffer(random, seen.form, payload))
}

/// An ending call, and the gather buffer.
pub fn ending(random: &mut Random, seen: &Seen) -> (Numbers, Vec<u8>) {
    let (caller, file) = old_file(random, seen, is_writable);
    let filled = filled(random, seen.form);
    (Numbers::Gathering { caller, file, filled }, transfer_buffer(random, seen.form, seen.form.payload_bytes()))
}

pub fn is_readable(file: &Entry) -> bool {
    file.kind == LINKED && file.readers != 0
}

pub fn is_writable(file: &Entry) -> bool {
    file.kind == LINKED && matches!(file.writer, OUTPUT | EXTEND)
}

/// A place in a file of so many blocks, sometimes behind its end.
fn place(random: &mut Random, length: usize) -> usize {
    match random.below(10) {
        0 => length,
        1 => length + random.below(3),
        2 => random.pick(&HUGE),
        3 => length.saturating_sub(1),
        _ => random.below(length.max(1)),
    }
}

pub fn mode(random: &mut Random) -> usize {
    if random.chance(1, 16) {
        random.pick(&[2, 3, 255, 256, 65536, 65537, 1 << 32, (1 << 32) + 1, 1 << 63, usize::MAX])
    } else {
        random.below(2)
    }
}

/// A position in a file of so many blocks, often near the end of one, sometimes behind the end of the file.
pub fn position(random: &mut Random, form: Form, length: usize) -> usize {
    let payload = form.payload_bytes();
    let end = payload * length;
    match random.below(16) {
        0 => random.below(3),
        1 => end,
        2 => end + 1,
        3 => end + random.between(1, 2 * payload),
        4 => random.pick(&HUGE),
        5..=7 => end.saturating_sub(random.below(10)),
        8..=11 => (payload * random.below(length + 1) + random.below(9)).saturating_sub(6),
        _ => random.below(end + 1),
    }
}

/// A filled count, often at one of its edges, sometimes too large.
pub fn filled(random: &mut Random, form: Form) -> usize {
    let full = form.payload_bytes();
    match random.below(12) {
        0 if random.chance(1, 2) => near_full(random, form),
        0 => random.pick(&[65536, 65536 + 7, 1 << 32, 1 << 63, usize::MAX]),
        1..=3 => 0,
        4 | 5 => random.between(full - 5, full - 1),
        6 => random.between(1, 3),
        _ => random.below(full),
    }
}

/// A number of bytes near to one payload or two, of the form or of some device.
fn near_full(random: &mut Random, form: Form) -> usize {
    let full = if random.chance(1, 4) { device_block(random) - 2 } else { form.payload_bytes() };
    random.between(full - 1, full + 2) + random.pick(&[0, full])
}
