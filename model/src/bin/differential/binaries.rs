//! Binary lines (02, §10) as they stand in the files of a pack, right and wrong; and the calls on them.

use crate::call::Numbers;
use crate::files::{length, old_file};
use crate::packs::Seen;
use crate::random::Random;
use crate::transfers::{filled, is_readable, is_writable, mode, position};
use crate::wrong::{transfer_buffer, HUGE};
use model::pack::entry::{Entry, LINKED};
use model::requests::binary::{binary_read, BinaryRead, MOST_DATA};
use model::requests::File;

/// The bytes of a line, made apart from the model.
fn line(data: &[u8]) -> Vec<u8> {
    let count = data.len() + 4;
    let mut line = vec![1, 0, (count % 256) as u8, (count / 256) as u8];
    line.extend(data);
    let sum: usize = line.iter().map(|&byte| byte as usize).sum();
    line.push(((256 - sum % 256) % 256) as u8);
    line
}

/// So many bytes of lines, most of them right, with NULs between them.
fn lines(random: &mut Random, bytes: usize) -> Vec<u8> {
    let most = random.pick(&[4, 30, 130, MOST_DATA]);
    let mut all = Vec::new();
    while all.len() < bytes {
        let length = random.below(most + 1);
        let mut next = line(&random.bytes(length));
        match random.below(24) {
            // A wrong byte: in the header, and anywhere.
            0 => next[random.below(4)] ^= 1 << random.below(8),
            1 => *next.last_mut().expect("it has a header") ^= 1 << random.below(8),
            2 => {
                let at = random.below(next.len());
                next[at] = random.below(256) as u8;
            }
            // A count at its bounds and behind them.
            3 => next[2..4].copy_from_slice(&random.pick(&[3u16, 4, 516, 517]).to_le_bytes()),
            _ => {}
        }
        if random.chance(1, 4) {
            all.resize(all.len() + random.below(9), 0);
        }
        all.extend(next);
    }
    all.truncate(bytes);
    all
}

/// Lays lines in files of half of the packs. Some end as an ending call leaves them.
pub fn fill(random: &mut Random, image: &mut [u8]) {
    if random.chance(1, 2) {
        return;
    }
    let Seen { form, files, .. } = Seen::of(image);
    for file in files.iter().filter(|file| file.kind == LINKED) {
        if random.chance(1, 3) {
            continue;
        }
        let mut bytes = lines(random, form.payload_bytes() * file.length as usize);
        if random.chance(1, 2) {
            let kept = bytes.len() - random.below(form.payload_bytes()).min(bytes.len());
            bytes[kept..].fill(0);
        }
        let mut number = file.first as usize;
        for payload in bytes.chunks(form.payload_bytes()) {
            form.block_mut(image, number)[2..].copy_from_slice(payload);
            number = form.link(image, number);
        }
    }
}

/// A read of a line, or of a part of one, and the buffer for it.
pub fn reading(random: &mut Random, seen: &Seen, image: &[u8]) -> (Numbers, Vec<u8>) {
    let begins = |file: &Entry| seen.form.payload(image, file.first as usize)[..2] == [1, 0];
    let (caller, file) = old_file(random, seen, |file| is_readable(file) && file.length > 0 && begins(file));
    let mode = mode(random);
    let (position, to_come, sum) = match random.below(4) {
        0 => {
            let (to_come, sum) = to_be_passed_in(random);
            (position(random, seen.form, length(seen, &file)), to_come, sum)
        }
        _ => behind_some(random, image, caller, file),
    };
    // The count of the line itself is of interest, and those beside it.
    let whole = binary_read(image, caller, file, 0, position, to_come, sum, &mut [0; MOST_DATA]);
    let count = whole.map_or(0, |read| read.count);
    let maximum = match random.below(8) {
        0 => random.pick(&[0, 1, 1, MOST_DATA, MOST_DATA + 1]),
        1 | 2 => random.between(1, 8),
        3 => random.between(1, MOST_DATA),
        _ => (count + random.below(3)).saturating_sub(1).max(1),
    };
    (Numbers::BinaryReading { caller, file, mode, position, to_come, sum }, random.bytes(maximum))
}

/// What is passed in again, mostly such as a read can give, sometimes at a bound or behind it.
fn to_be_passed_in(random: &mut Random) -> (usize, usize) {
    match random.below(8) {
        0 => (random.pick(&[0, 1, 511, 512, 513, 65536]), random.pick(&[0, 1, 255, 256, 65536])),
        1 => (random.pick(&HUGE), random.below(256)),
        2 => (random.below(512), random.pick(&HUGE)),
        3 | 4 => (random.between(1, 511), random.below(256)),
        _ => (0, 0),
    }
}

/// Where a read goes on behind some lines of a file, and perhaps behind a part of the next.
fn behind_some(random: &mut Random, image: &[u8], caller: usize, file: File) -> (usize, usize, usize) {
    let mut at = BinaryRead { count: 0, status: 0, position: 0, to_come: 0, sum: 0 };
    let mut buffer = [0; MOST_DATA];
    for _ in 0..random.below(12) {
        match binary_read(image, caller, file, 0, at.position, 0, 0, &mut buffer) {
            Ok(next) if next.status & 64 == 0 => at = next,
            _ => break,
        }
    }
    if random.chance(1, 2) {
        let most = random.pick(&[4, 40, MOST_DATA]);
        let part = random.between(1, most);
        if let Ok(next) = binary_read(image, caller, file, 1, at.position, 0, 0, &mut buffer[..part]) {
            at = next;
        }
    }
    (at.position, at.to_come, at.sum)
}

/// A write of a line, and the gather buffer.
pub fn writing(random: &mut Random, seen: &Seen) -> (Numbers, Vec<u8>, Vec<u8>) {
    let (caller, file) = old_file(random, seen, is_writable);
    let payload = seen.form.payload_bytes();
    let filled = filled(random, seen.form);
    let length = match random.below(16) {
        0 => random.pick(&[MOST_DATA + 1, MOST_DATA + 2, 1024, 65536, 65536 + 7]),
        1 | 2 => random.pick(&[0, MOST_DATA - 1, MOST_DATA, 251, 252, 253]),
        3..=6 => random.between(0, 20),
        // So that the gather buffer gets full exactly, or nearly so.
        7..=10 => {
            (payload * random.between(1, 5) + random.below(3)).saturating_sub(filled).saturating_sub(6).min(MOST_DATA)
        }
        _ => random.between(0, MOST_DATA),
    };
    let data = random.bytes(length);
    (Numbers::Gathering { caller, file, filled }, data, transfer_buffer(random, seen.form, payload))
}
