//! The free map (02, §7): "block b is bit b mod 16 of word b / 16, 1 if system or held, 0 otherwise and for b from n up". It is
//! made anew from the files wherever it may change, so that it says nothing of its own.

use super::consistency::{walk, Pack};
use super::form::Form;
use crate::words::{set_word, word};

/// What the map of a pack must be.
fn made(pack: &Pack) -> Vec<u8> {
    let mut map = vec![0; pack.form().block_bytes()];
    for block in (0..pack.header.blocks).filter(|&block| !pack.is_free(block)) {
        set(&mut map, block, true);
    }
    map
}

/// Whether the map of a pack is what it must be, in a form that has one.
pub fn agrees(image: &[u8], pack: &Pack) -> bool {
    let number = pack.form().map_block(pack.header.contents);
    number.is_none_or(|number| pack.form().block(image, number) == made(pack))
}

/// Makes the map of a pack anew in which everything else is right, in a form that has one.
pub fn renew(image: &mut [u8]) {
    if !Form::of_image(image).is_some_and(|form| form.has_map) {
        return;
    }
    let pack = walk(image).expect("everything else is right");
    if let Some(number) = pack.form().map_block(pack.header.contents) {
        pack.form().block_mut(image, number).copy_from_slice(&made(&pack));
    }
}

/// The bit of a block, by the bytes of the map.
pub fn bit(map: &[u8], block: usize) -> bool {
    word(map, block / 16) >> (block % 16) & 1 == 1
}

/// Makes the bit of a block 1 or 0.
pub fn set(map: &mut [u8], block: usize, bit: bool) {
    let rest = word(map, block / 16) & !(1 << (block % 16));
    set_word(map, block / 16, rest | (bit as u16) << (block % 16));
}
