//! "The decimal pair takes and gives five digits, at most 65535; the octal pair six, at most 177777."

use crate::refusal::{require, Refusal};

const LARGEST: usize = 0o177777;
const DECIMAL_DIGITS: usize = 5;
const OCTAL_DIGITS: usize = 6;

/// D2BIN: the number of five decimal digits.
pub fn d2bin(characters: &[u8]) -> Result<usize, Refusal> {
    number::<10, DECIMAL_DIGITS>(characters)
}

/// O2BIN: the number of six octal digits.
pub fn o2bin(characters: &[u8]) -> Result<usize, Refusal> {
    number::<8, OCTAL_DIGITS>(characters)
}

/// BIN2D: five decimal digits, leading zeros too.
pub fn bin2d(number: usize, buffer: &mut [u8]) -> Result<(), Refusal> {
    digits::<10, DECIMAL_DIGITS>(number, buffer)
}

/// BIN2O: six octal digits, leading zeros too.
pub fn bin2o(number: usize, buffer: &mut [u8]) -> Result<(), Refusal> {
    digits::<8, OCTAL_DIGITS>(number, buffer)
}

fn number<const BASE: usize, const DIGITS: usize>(characters: &[u8]) -> Result<usize, Refusal> {
    require(characters.len() == DIGITS, Refusal::Argument)?;
    let mut number = 0;
    for &character in characters {
        let digit = character.wrapping_sub(b'0') as usize;
        require(digit < BASE, Refusal::Conversion)?;
        number = BASE * number + digit;
    }
    require(number <= LARGEST, Refusal::Conversion)?;
    Ok(number)
}

fn digits<const BASE: usize, const DIGITS: usize>(number: usize, buffer: &mut [u8]) -> Result<(), Refusal> {
    require(buffer.len() == DIGITS, Refusal::Argument)?;
    require(number <= LARGEST, Refusal::Conversion)?;
    let mut rest = number;
    for place in buffer.iter_mut().rev() {
        *place = b'0' + (rest % BASE) as u8;
        rest /= BASE;
    }
    Ok(())
}
