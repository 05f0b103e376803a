//! Radix-50: "blank 0, A-Z 1-26, $ 27, period 28, 0-9 30-39; 29 has no character".

use crate::refusal::{require, Refusal};

/// The characters by their codes. At 29 stands a byte that is never given out.
const CHARACTERS: &[u8; 40] = b" ABCDEFGHIJKLMNOPQRSTUVWXYZ$.\x000123456789";
const NO_CHARACTER: usize = 29;

/// The number of words that three characters make, and so the first number that is none.
const WORDS: usize = 64000;

/// The code of a character.
pub fn code(character: u8) -> Option<u16> {
    match character {
        b' ' => Some(0),
        b'A'..=b'Z' => Some((character - b'A') as u16 + 1),
        b'$' => Some(27),
        b'.' => Some(28),
        b'0'..=b'9' => Some((character - b'0') as u16 + 30),
        _ => None,
    }
}

/// "A word is 1600a + 40b + c."
pub fn word(codes: [u16; 3]) -> u16 {
    1600 * codes[0] + 40 * codes[1] + codes[2]
}

/// RADPK: the word of three characters.
pub fn radpk(characters: &[u8]) -> Result<usize, Refusal> {
    require(characters.len() == 3, Refusal::Argument)?;
    let mut codes = [0; 3];
    for (place, &character) in codes.iter_mut().zip(characters) {
        *place = code(character).ok_or(Refusal::Conversion)?;
    }
    Ok(word(codes) as usize)
}

/// RADUP: the three characters of a word.
pub fn radup(word: usize, buffer: &mut [u8]) -> Result<(), Refusal> {
    require(buffer.len() == 3, Refusal::Argument)?;
    require(word < WORDS, Refusal::Conversion)?;
    let codes = [word / 1600, word / 40 % 40, word % 40];
    require(!codes.contains(&NO_CHARACTER), Refusal::Conversion)?;
    for (place, code) in buffer.iter_mut().zip(codes) {
        *place = CHARACTERS[code];
    }
    Ok(())
}
