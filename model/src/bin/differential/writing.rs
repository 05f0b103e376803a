//! Writing command lines (02, §4): records of readings, and records near to them.

use crate::call::Numbers;
use crate::lines;
use crate::random::Random;
use crate::wrong::HUGE;
use model::answers::SpecificationAnswer;
use model::command::{csi_write, reading, Specification};
use model::conversions::radup;

/// Numbers that a word of a record is changed to: bits, units, groups, and words of names good and bad.
const WORDS: [u16; 26] = [
    0,
    1,
    2,
    3,
    4,
    5,
    7,
    8,
    9,
    15,
    16,
    31,
    255,
    256,
    1600,
    1640,
    1641,
    1600 + 29,
    27 * 1600,
    30 * 1600,
    30 * 1600 + 40,
    39 * 1641,
    40 * 1600,
    65535,
    6 * 1600 + 18 * 40 + 5,
    1600 + 40 + 27,
];

/// How many specifications each side has, the words of all records, and where each of these begins.
struct Records {
    counts: [usize; 2],
    words: Vec<u16>,
    starts: Vec<usize>,
}

/// The records of a reading; of a line that is not in the grammar there are none.
fn records(line: &[u8], bounded: bool) -> Option<Records> {
    let mut all = Records { counts: [0; 2], words: Vec::new(), starts: Vec::new() };
    reading::read(line, |side, _, mut specification| {
        if let Some(device) = specification.device.as_mut().filter(|_| bounded) {
            device.unit %= 8;
        }
        all.counts[side] += 1;
        all.starts.push(all.words.len());
        all.words.extend(record(specification));
    })?;
    Some(all)
}

fn record(specification: Specification) -> Vec<u16> {
    let mut switches = vec![0; specification.switches.bytes()];
    specification.switches.write(&mut switches);
    let it = SpecificationAnswer::from(Ok(specification));
    let numbers = [it.present, it.device, it.unit, it.name1, it.name2, it.extension, it.group, it.user, it.switches];
    let behind = switches.chunks_exact(2).map(|word| u16::from_le_bytes([word[0], word[1]]));
    numbers.iter().map(|&number| number as u16).chain(behind).collect()
}

/// Counts and records, and the buffer for their line.
pub fn writing(random: &mut Random) -> (Numbers, Vec<u8>, Vec<u8>) {
    let line = lines::condensed(random);
    let bounded = random.chance(15, 16);
    let Records { mut counts, mut words, starts } = match records(&line, bounded) {
        Some(drawn) if random.chance(15, 16) => drawn,
        _ => empties(random),
    };
    match random.below(8) {
        0..=3 => spoil(random, &mut words),
        4 | 5 => {
            let start = random.pick(&starts);
            spoil_part(random, &mut words[start..]);
        }
        _ => {}
    }
    if random.chance(1, 12) {
        let side = random.below(2);
        spoil_count(random, &mut counts[side]);
    }
    let mut bytes: Vec<u8> = words.iter().flat_map(|word| word.to_le_bytes()).collect();
    match random.below(16) {
        0 => bytes.truncate(random.below(bytes.len() + 1)),
        1 => bytes.push(random.below(256) as u8),
        2 => bytes.extend([0; 2]),
        _ => {}
    }
    let [outputs, inputs] = counts;
    let needed = csi_write(outputs, inputs, &bytes, &mut [0; 128]).unwrap_or(0);
    let length = match random.below(8) {
        0 | 1 => needed.saturating_sub(1),
        2 => random.below(needed + 1),
        3 | 4 => needed,
        5 => 200,
        _ => 128,
    };
    let buffer = random.bytes(length);
    (Numbers::Sides { outputs, inputs }, bytes, buffer)
}

/// Specifications with no part, about as many as a line can have.
fn empties(random: &mut Random) -> Records {
    let inputs = if random.chance(1, 2) { 0 } else { random.between(1, 100) };
    let outputs = random.between(126, 132) - inputs;
    let all = outputs + inputs;
    Records { counts: [outputs, inputs], words: vec![0; 9 * all], starts: (0..all).map(|place| 9 * place).collect() }
}

/// Changes how many specifications a side has.
fn spoil_count(random: &mut Random, count: &mut usize) {
    *count = match random.below(4) {
        0 => 0,
        1 => count.saturating_sub(1),
        2 => *count + 1,
        _ => random.pick(&HUGE),
    };
}

/// Changes one word of the records, seldom two.
fn spoil(random: &mut Random, words: &mut [u16]) {
    for _ in 0..random.pick(&[1, 1, 1, 2]) {
        if words.is_empty() {
            return;
        }
        let at = random.below(words.len());
        words[at] = match random.below(4) {
            0 => random.below(65536) as u16,
            1 => words[at] ^ 1 << random.below(16),
            2 => words[random.below(words.len())],
            _ => random.pick(&WORDS),
        };
    }
}

/// Gives a part to the specification of a record, or takes one away, with numbers at their edges.
fn spoil_part(random: &mut Random, record: &mut [u16]) {
    let present = record[0];
    let letter = 1600 * random.between(1, 27) as u16;
    let word = letter + random.pick(&[0, 40, 41, 27 * 40, 30 * 40, 30]);
    let (at, numbers) = match random.below(8) {
        0 => (0, vec![present | 1, letter, random.below(9) as u16]),
        1 => (0, vec![present | 1, word, random.pick(&[0, 7, 8])]),
        2 => (0, vec![present & !1, 0, random.below(2) as u16]),
        3 => (3, vec![word, random.pick(&[0, letter]), 0]),
        4 => (0, vec![present & !2 | 4, record[1], record[2], 0, 0, word]),
        5 => (5, vec![random.pick(&[0, word])]),
        6 => {
            record[0] |= 8;
            (6, vec![random.pick(&[0, 255, 256]), random.pick(&[0, 255, 256])])
        }
        _ => (0, vec![present ^ 1 << random.below(5)]),
    };
    record[at..at + numbers.len()].copy_from_slice(&numbers);
}

/// Whether some line says the records, found another way than by the model's rules: the line that they would be is put
/// together whatever stands in them, and read; then its records are these, or no line's are.
pub fn is_said(numbers: Numbers, bytes: &[u8]) -> bool {
    let Numbers::Sides { outputs, inputs } = numbers else { unreachable!("{numbers:?}") };
    let words: Vec<u16> = bytes.chunks_exact(2).map(|word| u16::from_le_bytes([word[0], word[1]])).collect();
    let mut rest = words.iter().copied();
    let line = guessed(outputs, inputs, &mut rest);
    let units = |line: &[u8]| {
        let mut good = true;
        let read = reading::read(line, |_, _, it| good &= it.device.is_none_or(|device| device.unit <= 7));
        read.is_some() && good
    };
    bytes.len().is_multiple_of(2)
        && outputs > 0
        && line.is_some_and(|line| {
            let its = records(&line, false);
            units(&line) && its.is_some_and(|its| its.counts == [outputs, inputs] && its.words == words)
        })
}

/// The line, if the records have as many words as they say.
fn guessed(outputs: usize, inputs: usize, words: &mut impl Iterator<Item = u16>) -> Option<Vec<u8>> {
    let mut line = Vec::new();
    for place in 0..outputs.checked_add(inputs)? {
        if place == outputs {
            line.push(b'<');
        } else if place > 0 {
            line.push(b',');
        }
        let [present, device, unit, name1, name2, extension] = six(words)?;
        if present & 1 != 0 {
            line.extend(characters(device));
            line.extend(format!("{unit:o}:").bytes());
        }
        if present & 2 != 0 {
            line.extend([name1, name2].into_iter().flat_map(characters));
        }
        if present & 4 != 0 {
            line.push(b'.');
            line.extend(characters(extension));
        }
        let [group, user, switches] = [words.next()?, words.next()?, words.next()?];
        if present & 8 != 0 {
            line.extend(format!("[{group:o},{user:o}]").bytes());
        }
        for _ in 0..switches {
            let values = words.next()?;
            for value in 0..=values {
                line.push(if value == 0 { b'/' } else { b':' });
                line.extend([words.next()?, words.next()?].into_iter().flat_map(characters));
            }
        }
    }
    words.next().is_none().then_some(line)
}

fn six(words: &mut impl Iterator<Item = u16>) -> Option<[u16; 6]> {
    let mut numbers = [0; 6];
    for number in &mut numbers {
        *number = words.next()?;
    }
    Some(numbers)
}

/// The characters of a word but for blanks at its end, or one that is in no line.
fn characters(word: u16) -> Vec<u8> {
    let mut characters = [b'?'; 3];
    match radup(word as usize, &mut characters) {
        Ok(()) => characters.trim_ascii_end().to_vec(),
        Err(_) => vec![b'?'],
    }
}
