//! Command lines in the grammar and near it.

use crate::random::Random;

const LETTERS: &[u8] = b"ABSXYZ";
const NAME_CHARACTERS: &[u8] = b"ABSZ01789";
const OCTAL: &[u8] = b"01347";
/// What stands in commands, and characters that look like it.
const ALPHABET: &[u8] = b"AZDT017890:.[],<//,:AB1*$;@a-";
/// Characters that are in no command, some of which CSI1 drops.
const STRANGE: &[u8] = b" \t\0\x7f\r\n\x0b\x0c\x01\x1f\x80\xc1\xff\xa0^`{GZ@[/:89";
const DROPPED: &[u8] = b" \t\0\x7f";

/// A line in the grammar or near it, without the characters that CSI1 drops, but for a few.
pub fn condensed(random: &mut Random) -> Vec<u8> {
    let mut line = match random.below(10) {
        0 => {
            let length = random.between(0, 24);
            (0..length).map(|_| random.pick(ALPHABET)).collect()
        }
        1 => {
            let target = if random.chance(1, 2) { random.between(127, 129) } else { random.between(120, 132) };
            long(random, target)
        }
        2 => device_or_name(random),
        _ => command(random),
    };
    if random.chance(2, 5) {
        mutate(random, &mut line);
        if random.chance(1, 4) {
            mutate(random, &mut line);
        }
    }
    line
}

/// The same with characters between that CSI1 drops, sometimes up to the greatest length.
pub fn raw(random: &mut Random) -> Vec<u8> {
    let mut line = condensed(random);
    let more = random.pick(&[0, 0, 1, 3, 20]);
    for _ in 0..more {
        line.insert(random.below(line.len() + 1), random.pick(DROPPED));
    }
    if random.chance(1, 12) {
        let length = random.between(509, 515);
        let at = random.below(line.len() + 1);
        let fill = length.saturating_sub(line.len());
        line.splice(at..at, std::iter::repeat_n(random.pick(DROPPED), fill));
    }
    line
}

/// A line of the grammar.
fn command(random: &mut Random) -> Vec<u8> {
    let mut line = side(random);
    if random.chance(1, 2) {
        line.push(b'<');
        line.extend(side(random));
    }
    line
}

/// A line of the grammar that has about so many characters, mostly exactly as many.
fn long(random: &mut Random, target: usize) -> Vec<u8> {
    let mut line = Vec::new();
    let mut arrow = false;
    loop {
        let next = specification(random);
        if line.len() + next.len() + 1 > target {
            break;
        }
        line.extend(next);
        let separator = if !arrow && random.chance(1, 4) { b'<' } else { b',' };
        arrow |= separator == b'<';
        line.push(separator);
    }
    while line.len() + 1 < target && random.chance(15, 16) {
        line.extend(random.pick(&[b"/A", b",,", b"/9"]));
    }
    while line.len() < target {
        line.push(b',');
    }
    if random.chance(1, 4) {
        // It stops too soon, and would have to be longer.
        line[target - 1] = random.pick(b"/[");
    }
    line
}

/// Characters of which it shows late, or never, whether they are a device or a name.
fn device_or_name(random: &mut Random) -> Vec<u8> {
    let mut line = if random.chance(1, 2) { command(random) } else { Vec::new() };
    some(random, &mut line, 0, 4, LETTERS);
    let most = random.pick(&[2, 5, 20]);
    let digits = if random.chance(1, 4) { NAME_CHARACTERS } else { OCTAL };
    some(random, &mut line, 0, most, digits);
    if random.chance(2, 3) {
        line.push(random.pick(b"::.,[/<8"));
        line.extend(specification(random));
    }
    line
}

fn side(random: &mut Random) -> Vec<u8> {
    let mut line = specification(random);
    for _ in 0..random.pick(&[0, 0, 0, 1, 2, 4]) {
        line.push(b',');
        line.extend(specification(random));
    }
    line
}

fn specification(random: &mut Random) -> Vec<u8> {
    let mut text = Vec::new();
    if random.chance(2, 5) {
        some(random, &mut text, 2, 3, LETTERS);
        number(random, &mut text, 0, 7);
        text.push(b':');
    }
    if random.chance(3, 5) {
        some(random, &mut text, 1, 6, NAME_CHARACTERS);
        if random.chance(1, 2) {
            text.push(b'.');
            some(random, &mut text, 1, 3, NAME_CHARACTERS);
        }
    }
    if random.chance(1, 3) {
        text.push(b'[');
        number(random, &mut text, 1, 0o377);
        text.push(b',');
        number(random, &mut text, 1, 0o377);
        text.push(b']');
    }
    for _ in 0..random.pick(&[0, 0, 0, 1, 2, 3]) {
        text.push(b'/');
        some(random, &mut text, 1, 1, LETTERS);
        some(random, &mut text, 0, 5, NAME_CHARACTERS);
        for _ in 0..random.pick(&[0, 0, 1, 2, 3]) {
            text.push(b':');
            some(random, &mut text, 1, 6, NAME_CHARACTERS);
        }
    }
    text
}

fn some(random: &mut Random, text: &mut Vec<u8>, least: usize, most: usize, from: &[u8]) {
    for _ in 0..random.between(least, most) {
        text.push(random.pick(from));
    }
}

/// An octal number, of whose digits there is no greatest number; mostly one that keeps its bound.
fn number(random: &mut Random, text: &mut Vec<u8>, least: usize, bound: usize) {
    let value = match random.below(32) {
        0 => {
            let most = random.pick(&[1, 2, 3, 4, 12, 30]);
            return some(random, text, least, most, OCTAL);
        }
        1 => bound + 1,
        2 | 3 => bound,
        4 => 0,
        _ => random.below(bound + 1),
    };
    if value == 0 && least == 0 && random.chance(1, 2) {
        return;
    }
    for _ in 0..random.pick(&[0, 0, 0, 0, 1, 2, 20]) {
        text.push(b'0');
    }
    text.extend(format!("{value:o}").into_bytes());
}

/// Changes a line by a character.
fn mutate(random: &mut Random, line: &mut Vec<u8>) {
    let from = if random.chance(1, 4) { STRANGE } else { ALPHABET };
    let character = random.pick(from);
    if line.is_empty() {
        line.push(character);
        return;
    }
    let at = random.below(line.len());
    match random.below(6) {
        0 => line.truncate(at),
        1 => {
            line.remove(at);
        }
        2 | 3 => line.insert(at, character),
        4 => line.push(character),
        _ => line[at] = character,
    }
}
