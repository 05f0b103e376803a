//! An entry of the contents: 16 words that say what file there is.

use super::form::ENTRY_BYTES;
use crate::words::{set_word, word};

/// The words of an entry that requests change one by one.
pub const NAME1: usize = 0;
pub const NAME2: usize = 1;
pub const EXTENSION: usize = 2;
pub const PROTECT: usize = 4;
pub const FIRST: usize = 6;
pub const LENGTH: usize = 7;
pub const LAST: usize = 8;
pub const WRITER: usize = 9;
pub const READERS: usize = 10;

/// The kinds of files.
pub const CONTIGUOUS: u16 = 1;
pub const LINKED: u16 = 2;

/// The writers, and for CLOSE the reader as a fourth.
pub const UPDATE: u16 = 1;
pub const OUTPUT: u16 = 2;
pub const EXTEND: u16 = 3;
pub const INPUT: u16 = 4;

/// The most opens that a file can have (000: 76 octal).
pub const MOST_OPENS: u16 = 62;

/// What an entry says, word by word.
#[derive(Clone, Copy, Debug, PartialEq, Eq)]
pub struct Entry {
    pub name1: u16,
    pub name2: u16,
    pub extension: u16,
    pub uic: u16,
    pub protect: u16,
    pub kind: u16,
    pub first: u16,
    pub length: u16,
    pub last: u16,
    pub writer: u16,
    pub readers: u16,
}

/// The first four words of an entry as one number: name, extension and UIC, which no two files have alike.
#[inline]
pub fn key(bytes: &[u8; ENTRY_BYTES]) -> u64 {
    u64::from_le_bytes(bytes[..8].try_into().expect("8 bytes were taken"))
}

/// "An empty entry is all zero."
#[inline]
pub fn is_empty(bytes: &[u8; ENTRY_BYTES]) -> bool {
    *bytes == [0; ENTRY_BYTES]
}

impl Entry {
    #[inline]
    pub fn read(bytes: &[u8; ENTRY_BYTES]) -> Entry {
        Entry {
            name1: word(bytes, NAME1),
            name2: word(bytes, NAME2),
            extension: word(bytes, EXTENSION),
            uic: word(bytes, 3),
            protect: word(bytes, PROTECT),
            kind: word(bytes, 5),
            first: word(bytes, FIRST),
            length: word(bytes, LENGTH),
            last: word(bytes, LAST),
            writer: word(bytes, WRITER),
            readers: word(bytes, READERS),
        }
    }

    /// Writes all 16 words, the last five as zeros.
    pub fn write(&self, bytes: &mut [u8; ENTRY_BYTES]) {
        let words = [
            self.name1,
            self.name2,
            self.extension,
            self.uic,
            self.protect,
            self.kind,
            self.first,
            self.length,
            self.last,
            self.writer,
            self.readers,
        ];
        bytes.fill(0);
        for (index, value) in words.into_iter().enumerate() {
            set_word(bytes, index, value);
        }
    }

    /// "readers, plus 1 if there is a writer".
    pub fn opens(&self) -> u32 {
        self.readers as u32 + (self.writer != 0) as u32
    }

    pub fn is_open(&self) -> bool {
        self.opens() != 0
    }
}
