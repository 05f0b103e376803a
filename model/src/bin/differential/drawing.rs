//! Draws the arguments of a call: mostly such as a deed can come of, and some that are wrong in one way or another.

use crate::binaries;
use crate::call::{Call, Numbers};
use crate::files::{new_file, old_file, pool_file, present, spoil};
use crate::lines;
use crate::lists;
use crate::packs::{self, Seen};
use crate::random::Random;
use crate::request::Request;
use crate::transfers;
use crate::writing;
use crate::wrong::HUGE;
use model::command::{csi2, reading};
use model::pack::entry::{Entry, CONTIGUOUS, LINKED, OUTPUT};
use model::pack::form::{Form, ALL};

/// A request that is drawn by its weight.
pub fn request(random: &mut Random) -> Request {
    let all = crate::request::ALL;
    let mut left = random.below(all.iter().map(|request| request.weight()).sum());
    for &request in all {
        if left < request.weight() {
            return request;
        }
        left -= request.weight();
    }
    unreachable!("the weights were summed")
}

/// A call of a request on a pack.
pub fn call(random: &mut Random, request: Request, image: &[u8]) -> Call {
    let seen = &Seen::of(image);
    let (numbers, line, buffer) = match request {
        Request::Format => without_line(format(random)),
        Request::Alloc | Request::Openo => numbers_alone(creating(random, seen)),
        Request::Renam => numbers_alone(renaming(random, seen)),
        Request::Appnd => numbers_alone(appending(random, seen)),
        Request::Look | Request::Keep | Request::Delet | Request::Openi | Request::Openu | Request::Opene => {
            numbers_alone(on_file(random, request, seen))
        }
        Request::Close => numbers_alone(closing(random, seen)),
        Request::Finish => numbers_alone(Numbers::One(finishing(random, seen))),
        Request::Many => lists::list(random, image),
        Request::Owner => numbers_alone(Numbers::One(block(random, seen))),
        Request::ToForm2 => (Numbers::None, Vec::new(), target(random, seen, seen.blocks + 1)),
        Request::ToForm1 => (Numbers::None, Vec::new(), target(random, seen, seen.blocks - 1)),
        Request::BlockIn | Request::BlockOut | Request::LinkedRead | Request::LinkedAdd => {
            without_line(transfers::transferring(random, request, seen))
        }
        Request::LineRead => without_line(transfers::reading(random, seen, image)),
        Request::LineWrite => transfers::writing(random, seen),
        Request::LineEnd => without_line(transfers::ending(random, seen)),
        Request::BinaryRead => without_line(binaries::reading(random, seen, image)),
        Request::BinaryWrite => binaries::writing(random, seen),
        Request::Radpk | Request::D2bin | Request::O2bin => (Numbers::None, Vec::new(), to_number(random, request)),
        Request::Radup | Request::Bin2d | Request::Bin2o => without_line(to_characters(random, request)),
        Request::Csi1 => condensing(random),
        Request::Csi2 => asking(random),
        Request::CsiWrite => writing::writing(random),
    };
    Call { request, numbers, line, buffer }
}

fn numbers_alone(numbers: Numbers) -> (Numbers, Vec<u8>, Vec<u8>) {
    (numbers, Vec::new(), Vec::new())
}

fn without_line((numbers, buffer): (Numbers, Vec<u8>)) -> (Numbers, Vec<u8>, Vec<u8>) {
    (numbers, Vec::new(), buffer)
}

fn format(random: &mut Random) -> (Numbers, Vec<u8>) {
    let form = random.pick(ALL);
    let (blocks, contents) = packs::measures(random, form);
    let word = form.word as usize;
    let edges = [
        0,
        form.least_blocks - 1,
        form.least_blocks,
        form.most_blocks,
        form.most_blocks + 1,
        blocks + 1,
        // At the bound of some form.
        random.pick(ALL).most_blocks,
        blocks + 65536,
        // So that the bytes of all blocks would be as many as there are.
        blocks + (1 << 57),
    ];
    let (most, other) = (form.most_contents, random.pick(ALL).most_contents);
    let (word, blocks, contents) = match random.below(12) {
        0 => (random.pick(&[0, 1, 2, 3, 4, word + 65536]), blocks, contents),
        1 => (word, random.pick(&edges), contents),
        2 => (word, blocks, random.pick(&[0, most + 1, most + 2, other, blocks - form.system, 65537, usize::MAX])),
        _ => (word, blocks, contents),
    };
    (Numbers::Format { form: word, blocks, contents }, format_uics(random, form))
}

/// The target of a move, of so many blocks, sometimes of another size.
fn target(random: &mut Random, seen: &Seen, blocks: usize) -> Vec<u8> {
    let right = seen.form.block_bytes() * blocks;
    let length = match random.below(12) {
        0 => random.pick(&[0, 1, right - 1, right + 1, right - 2, right + 2]),
        1 => seen.form.block_bytes() * random.pick(&[blocks - 1, blocks + 1, seen.blocks]),
        _ => right,
    };
    random.bytes(length)
}

fn creating(random: &mut Random, seen: &Seen) -> Numbers {
    let (caller, file) = new_file(random, seen);
    let all = seen.form.segments * seen.blocks;
    let segments = match random.below(10) {
        0 => random.pick(&[0, 0, 65535, 65536, 65540, all, 1 << 63, usize::MAX, usize::MAX - 2]),
        1 => random.between(1, all),
        2 => seen.form.segments * seen.bodies().len() + random.below(2),
        _ => random.between(1, 6 * seen.form.segments),
    };
    Numbers::New { caller, file, protect: protect(random), segments }
}

fn renaming(random: &mut Random, seen: &Seen) -> Numbers {
    let (caller, old) = old_file(random, seen, |file| file.opens() == 0);
    let mut new = if random.chance(1, 5) { old_file(random, seen, |_| true).1 } else { pool_file(random, seen) };
    if random.chance(1, 16) {
        spoil(random, &mut new);
    }
    if random.chance(1, 16) {
        new = old;
    }
    Numbers::Rename { caller, old, new, protect: protect(random) }
}

fn appending(random: &mut Random, seen: &Seen) -> Numbers {
    let serves = |file: &Entry| file.kind == LINKED && file.opens() == 0 && file.protect & 0o100 == 0;
    let (caller, first) = old_file(random, seen, serves);
    let mine = random.chance(3, 4);
    let other = |file: &Entry| (file.name1 as usize, file.extension as usize) != (first.name1, first.extension);
    let mut second =
        present(random, seen, |file| serves(file) && other(file) && (!mine || file.uic as usize == caller));
    if second.uic == caller && random.chance(1, 2) {
        second.uic = 0;
    }
    if random.chance(1, 16) {
        spoil(random, &mut second);
    }
    if random.chance(1, 16) {
        second = first;
        if random.chance(1, 2) {
            second.uic = if first.uic == 0 { caller } else { 0 };
        }
    }
    Numbers::Append { caller, first, second }
}

fn on_file(random: &mut Random, request: Request, seen: &Seen) -> Numbers {
    let closed = request == Request::Delet && random.chance(1, 2);
    let (caller, file) = old_file(random, seen, |file| match request {
        Request::Openi => file.writer != OUTPUT,
        Request::Openu => file.kind == CONTIGUOUS,
        Request::Opene => file.kind == LINKED && file.writer != OUTPUT,
        _ => !closed || file.opens() == 0,
    });
    Numbers::File { caller, file }
}

fn closing(random: &mut Random, seen: &Seen) -> Numbers {
    let (caller, file) = old_file(random, seen, |file| file.opens() != 0);
    let mode = if random.chance(1, 12) { random.pick(&[0, 5, 65537, 65540, 1 << 63]) } else { random.between(1, 4) };
    Numbers::Mode { caller, file, mode }
}

/// Who finishes: mostly someone who has a file that goes.
fn finishing(random: &mut Random, seen: &Seen) -> usize {
    old_file(random, seen, |file| file.opens() == 0 && file.protect & 0o300 == 0).0
}

/// A block of the pack, sometimes behind its end.
fn block(random: &mut Random, seen: &Seen) -> usize {
    match random.below(8) {
        0 => random.pick(&HUGE),
        1 => seen.blocks,
        2 => seen.blocks - 1,
        3 => random.below(seen.bodies().start + 1),
        _ => random.below(seen.blocks),
    }
}

/// Characters for a conversion to a number.
fn to_number(random: &mut Random, request: Request) -> Vec<u8> {
    match request {
        Request::Radpk => characters(random, 3, b" ABCXYZ$.0189", b" ABC\x21\x23\x2d\x2f\x3a\x40\x5b\x60a\0\xa0\xc1"),
        Request::D2bin => {
            let drawn = characters(random, 5, b"0123456789", b"01239:/ -+\xb1a\0");
            if random.chance(1, 4) {
                std::format!("{:05}", random.between(65530, 65540)).into_bytes()
            } else {
                drawn
            }
        }
        _ => {
            let mut drawn = characters(random, 6, b"01234567", b"012789:/ -+\xb1a\0");
            if let Some(first) = drawn.first_mut() {
                // Most numbers of six digits are too large.
                *first = if random.chance(3, 4) { random.pick(b"0012") } else { *first };
            }
            drawn
        }
    }
}

/// A number and a buffer for a conversion to characters.
fn to_characters(random: &mut Random, request: Request) -> (Numbers, Vec<u8>) {
    let (size, largest) = match request {
        Request::Radup => {
            let codes = [0, 1, 26, 27, 28, 29, 30, 39];
            (3, 1600 * random.pick(&codes) + 40 * random.pick(&codes) + random.pick(&codes))
        }
        Request::Bin2d => (5, 65535),
        _ => (6, 65535),
    };
    let buffer = converted_buffer(random, size);
    (Numbers::One(converted_number(random, largest)), buffer)
}

/// A line for CSI1 and its buffer.
fn condensing(random: &mut Random) -> (Numbers, Vec<u8>, Vec<u8>) {
    let line = lines::raw(random);
    let kept = line.iter().filter(|character| !b" \t\0\x7f".contains(character)).count();
    let length = match random.below(12) {
        0 => kept.saturating_sub(1),
        1 => random.below(kept + 1),
        2 | 3 => kept,
        4 => 600,
        _ => 128,
    };
    let buffer = random.bytes(length);
    (Numbers::None, line, buffer)
}

/// A line for CSI2, what is asked of it, and the buffer for its switches.
fn asking(random: &mut Random) -> (Numbers, Vec<u8>, Vec<u8>) {
    let line = lines::condensed(random);
    let (side, k) = asked(random, &line);
    let needed = csi2(&line, side, k, &mut [0; 384]).map_or(0, |read| read.switches.bytes());
    let length = match random.below(8) {
        0 | 1 => needed.saturating_sub(1),
        2 => random.below(needed + 1),
        3 | 4 => needed,
        5 => 400,
        _ => 384,
    };
    let buffer = random.bytes(length);
    (Numbers::Side { side, k }, line, buffer)
}

/// The UICs for Format, as bytes, and sometimes wrong.
fn format_uics(random: &mut Random, form: Form) -> Vec<u8> {
    let mut uics = packs::uics(random, form);
    match random.below(12) {
        0 => uics.push(0),
        1 => uics.extend(uics.first().copied()),
        2 => uics = (1..=random.between(form.most_uics - 1, form.most_uics + 2) as u16).collect(),
        _ => {}
    }
    random.shuffle(&mut uics);
    let mut bytes: Vec<u8> = uics.iter().flat_map(|uic| uic.to_le_bytes()).collect();
    if random.chance(1, 16) {
        bytes.push(1);
    }
    bytes
}

fn protect(random: &mut Random) -> usize {
    match random.below(12) {
        0 => random.pick(&[256, 65536, 65536 + 3, 1 << 32, usize::MAX]),
        1..=5 => random.pick(&[0, 3, 0o33, 0o100, 0o255, 0o377]),
        _ => random.below(256),
    }
}

/// Characters for a conversion, mostly of its set and of the size asked.
fn characters(random: &mut Random, size: usize, set: &[u8], near: &[u8]) -> Vec<u8> {
    let length = if random.chance(1, 8) { random.below(size + 3) } else { size };
    let from = if random.chance(1, 4) { near } else { set };
    let mut characters: Vec<u8> = (0..length).map(|_| random.pick(from)).collect();
    if length > 0 && random.chance(1, 12) {
        characters[random.below(length)] = random.below(256) as u8;
    }
    characters
}

fn converted_buffer(random: &mut Random, size: usize) -> Vec<u8> {
    let length = if random.chance(1, 6) { random.below(size + 3) } else { size };
    random.bytes(length)
}

fn converted_number(random: &mut Random, likely: usize) -> usize {
    match random.below(6) {
        0 => random.pick(&HUGE),
        1 => random.pick(&[0, 63999, 64000, 64001, 65535, 65536, 9, 10, 7, 8]),
        2 | 3 => random.below(65600),
        _ => likely,
    }
}

/// A side and a place that is mostly one of the line's.
fn asked(random: &mut Random, line: &[u8]) -> (usize, usize) {
    let mut places = Vec::new();
    let read = reading::read(line, |side, place, _| places.push((side, place)));
    if read.is_some() && random.chance(4, 5) {
        return random.pick(&places);
    }
    let side = random.pick(&[0, 0, 1, 1, 2, 65536, 1 << 32, usize::MAX]);
    let k = random.pick(&[0, 1, 2, places.len(), 127, 128, 65536, 1 << 63]);
    (side, k)
}
