//! The text that the listing program prints of an image (01, "Examples").

use crate::conversions::radup;
use crate::pack::consistency::examine;
use crate::pack::entry::{self, Entry, CONTIGUOUS};
use std::fmt::Write;

/// The longest input that the program takes.
const LONGEST: usize = 65536;

/// The listing of an image, "entries in stored order".
pub fn listing(image: &[u8]) -> String {
    let pack = match examine(image) {
        Ok(pack) if image.len() <= LONGEST => pack,
        _ => return String::from("REFUSED 40\n"),
    };
    let blocks = pack.header.blocks;
    let free = (0..blocks).filter(|&block| pack.is_free(block)).count();
    let mut text = format!("BLOCKS {blocks:05} FREE {free:05}\n");
    for index in 0..pack.header.entries() {
        let bytes = pack.form().entry(image, index);
        if entry::is_empty(bytes) {
            continue;
        }
        let file = Entry::read(bytes);
        writeln!(
            text,
            "{}{}.{} {} {:05} [{:03o},{:03o}] {:03o}",
            characters(file.name1),
            characters(file.name2),
            characters(file.extension),
            if file.kind == CONTIGUOUS { 'C' } else { 'L' },
            file.length,
            file.uic / 256,
            file.uic % 256,
            file.protect
        )
        .expect("a string takes all that is written");
    }
    text
}

/// The characters of a word of a legal name.
fn characters(word: u16) -> String {
    let mut buffer = [0; 3];
    radup(word as usize, &mut buffer).expect("a legal name has characters");
    String::from_utf8_lossy(&buffer).into_owned()
}
