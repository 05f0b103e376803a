//! Block 0: the form, the measures of the pack and its UICs.

use super::form::Form;
use crate::words::word;
use std::ops::Range;

/// The word at which the UICs begin.
pub const FIRST_UIC: usize = 4;

/// The UICs that may own files, sorted, so that a UIC twice there stands side by side.
pub struct Uics {
    sorted: Vec<u16>,
}

impl Uics {
    /// Reads words of UICs; `None` unless they are as few as the form allows, "distinct and not 0".
    pub fn read(form: Form, bytes: &[u8]) -> Option<Uics> {
        let count = bytes.len() / 2;
        if count > form.most_uics {
            return None;
        }
        let mut sorted: Vec<u16> = (0..count).map(|index| word(bytes, index)).collect();
        sorted.sort_unstable();
        let good = sorted.first() != Some(&0) && sorted.windows(2).all(|pair| pair[0] != pair[1]);
        good.then_some(Uics { sorted })
    }

    pub fn contain(&self, uic: usize) -> bool {
        u16::try_from(uic).is_ok_and(|uic| self.sorted.binary_search(&uic).is_ok())
    }
}

pub struct Header {
    pub form: Form,
    pub blocks: usize,
    pub contents: usize,
    pub uics: Uics,
}

impl Header {
    /// Reads block 0 of an image; `None` unless all holds that 01 says of it and the image is n blocks.
    pub fn read(image: &[u8]) -> Option<Header> {
        let form = Form::of_image(image)?;
        if image.len() < form.block_bytes() {
            return None;
        }
        let [blocks, contents, count] = [1, 2, 3].map(|index| word(image, index) as usize);
        let measures = form.is_blocks(blocks) && form.is_contents(contents, blocks) && count <= form.most_uics;
        if !measures || image.len() != form.block_bytes() * blocks {
            return None;
        }
        let (listed, rest) = form.block(image, 0)[2 * FIRST_UIC..].split_at(2 * count);
        if rest.iter().fold(0, |bits, byte| bits | byte) != 0 {
            return None;
        }
        Some(Header { form, blocks, contents, uics: Uics::read(form, listed)? })
    }

    /// How many entries the contents have.
    pub fn entries(&self) -> usize {
        self.form.entries_per_block() * self.contents
    }

    /// The blocks that files can hold.
    pub fn bodies(&self) -> Range<usize> {
        self.form.first_body(self.contents)..self.blocks
    }
}
