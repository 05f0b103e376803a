//! Writing a command line (02, §4): "given the specifications of one or both sides as CSI2 returns them, write the line".

use super::MOST_CONDENSED;
use crate::conversions::radup;
use crate::refusal::{require, Refusal};

/// "A unit must be at most 7, a group and a user at most 377 octal" (02, §3).
const LAST_UNIT: u16 = 7;
const LAST_OWNER: u16 = 0o377;

/// Writes the line of so many output and input specifications to the start of a buffer and gives its length; with no
/// input specification there is no `<`. "41, ..; 53, ..; 52, ..; in that order."
pub fn csi_write(outputs: usize, inputs: usize, records: &[u8], buffer: &mut [u8]) -> Result<usize, Refusal> {
    let line = Line::of(outputs, inputs, records).ok_or(Refusal::Argument)?;
    require(line.length <= MOST_CONDENSED, Refusal::LineLong)?;
    let written = buffer.get_mut(..line.length).ok_or(Refusal::BufferShort)?;
    written.copy_from_slice(&line.characters[..line.length]);
    Ok(line.length)
}

/// The line so far; of one that is too long the length alone goes on.
struct Line {
    characters: [u8; MOST_CONDENSED],
    length: usize,
}

impl Line {
    /// The line of the records, or nothing if no line says them.
    fn of(outputs: usize, inputs: usize, records: &[u8]) -> Option<Line> {
        let mut line = Line { characters: [0; MOST_CONDENSED], length: 0 };
        let mut words = Words { rest: records };
        line.side(outputs, &mut words)?;
        if inputs > 0 {
            line.put(b'<');
            line.side(inputs, &mut words)?;
        }
        words.rest.is_empty().then_some(line)
    }

    /// "Side: one or more specifications"
    fn side(&mut self, specifications: usize, words: &mut Words) -> Option<()> {
        self.specification(words.record()?, words).filter(|_| specifications > 0)?;
        for _ in 1..specifications {
            self.put(b',');
            self.specification(words.record()?, words)?;
        }
        Some(())
    }

    fn specification(&mut self, record: [u16; 9], words: &mut Words) -> Option<()> {
        let [present, device, unit, name1, name2, extension, group, user, switches] = record;
        let there = |bit: u16| present & bit != 0;
        let absent = |bit: u16, numbers: &[u16]| there(bit) || numbers.iter().all(|&number| number == 0);
        let zeros = absent(1, &[device, unit])
            && absent(2, &[present & 4, name1, name2])
            && absent(4, &[extension])
            && absent(8, &[group, user]);
        if present > 15 || !zeros {
            return None;
        }
        if there(1) {
            self.device(device, unit)?;
        }
        if there(2) {
            self.name(name1, name2)?;
        }
        if there(4) {
            self.put(b'.');
            self.name(extension, 0)?;
        }
        if there(8) {
            self.uic(group, user)?;
        }
        for _ in 0..switches {
            self.switch(words)?;
        }
        Some(())
    }

    /// "2 or 3 letters", and the "unit shown only if not 0"
    fn device(&mut self, letters: u16, unit: u16) -> Option<()> {
        let (characters, length) = spelled(letters, 0)?;
        let characters = &characters[..length];
        if length < 2 || !characters.iter().all(u8::is_ascii_uppercase) || unit > LAST_UNIT {
            return None;
        }
        characters.iter().for_each(|&character| self.put(character));
        if unit != 0 {
            self.octal(unit);
        }
        self.put(b':');
        Some(())
    }

    /// Up to six letters and digits, at least one.
    fn name(&mut self, first: u16, second: u16) -> Option<u8> {
        let (characters, length) = spelled(first, second)?;
        characters[..length].iter().for_each(|&character| self.put(character));
        (length > 0).then_some(characters[0])
    }

    /// "group and user in octal without leading zeros"
    fn uic(&mut self, group: u16, user: u16) -> Option<()> {
        if group > LAST_OWNER || user > LAST_OWNER {
            return None;
        }
        self.put(b'[');
        self.octal(group);
        self.put(b',');
        self.octal(user);
        self.put(b']');
        Some(())
    }

    fn switch(&mut self, words: &mut Words) -> Option<()> {
        let [values, first, second] = [words.word()?, words.word()?, words.word()?];
        self.put(b'/');
        self.name(first, second).filter(u8::is_ascii_uppercase)?;
        for _ in 0..values {
            self.put(b':');
            let (first, second) = (words.word()?, words.word()?);
            self.name(first, second)?;
        }
        Some(())
    }

    fn octal(&mut self, number: u16) {
        if number >= 8 {
            self.octal(number / 8);
        }
        self.put(b'0' + (number % 8) as u8);
    }

    fn put(&mut self, character: u8) {
        if let Some(place) = self.characters.get_mut(self.length) {
            *place = character;
        }
        self.length += 1;
    }
}

/// What is left of the records.
struct Words<'records> {
    rest: &'records [u8],
}

impl Words<'_> {
    fn word(&mut self) -> Option<u16> {
        let (word, rest) = self.rest.split_first_chunk()?;
        self.rest = rest;
        Some(u16::from_le_bytes(*word))
    }

    fn record(&mut self) -> Option<[u16; 9]> {
        let mut record = [0; 9];
        for number in &mut record {
            *number = self.word()?;
        }
        Some(record)
    }
}

/// The letters and digits of two words, and how many they are; nothing if others are there, or blanks between.
fn spelled(first: u16, second: u16) -> Option<([u8; 6], usize)> {
    let mut characters = [0; 6];
    let (front, back) = characters.split_at_mut(3);
    radup(first as usize, front).ok()?;
    radup(second as usize, back).ok()?;
    let length = characters.iter().position(|&character| character == b' ').unwrap_or(6);
    let good = |&character: &u8| character.is_ascii_uppercase() || character.is_ascii_digit();
    let blank = |&character: &u8| character == b' ';
    let fits = characters[..length].iter().all(good) && characters[length..].iter().all(blank);
    fits.then_some((characters, length))
}
