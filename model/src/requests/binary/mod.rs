//! Formatted binary lines (02, §10): "bytes 1 and 0, a count word of 4 plus the data bytes, low byte first, the data, then
//! one byte that makes the sum of all of them 0 modulo 256".

mod read;
mod write;

pub use read::{binary_read, BinaryRead};
pub use write::binary_write;

const FIRST_WORD: [u8; 2] = [1, 0];
/// The bytes of the two words, which the count word counts too.
const HEADER: usize = 4;
/// "At most 512 data bytes."
pub const MOST_DATA: usize = 512;

/// "Bit 1 is a wrong sum;"
pub const WRONG_SUM: usize = 1 << 1;
/// "bit 2 a wrong first word or a count not 4 to 516".
pub const WRONG_FORMAT: usize = 1 << 2;
