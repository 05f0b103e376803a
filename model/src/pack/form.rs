//! The forms of packs: the numbers in which they differ, and those that all have. What is measured elsewhere is made of these.

use crate::words::word;

/// The bytes of a segment: 64 words (000).
pub const SEGMENT_BYTES: usize = 128;

/// The bytes of an entry: 16 words.
pub const ENTRY_BYTES: usize = 32;

/// The least that c can be, the blocks of the contents.
pub const LEAST_CONTENTS: usize = 1;

/// A form, by its numbers.
#[derive(Clone, Copy, Debug, PartialEq, Eq)]
pub struct Form {
    /// Word 0 of block 0.
    pub word: u16,
    /// The segments of a block (000: B).
    pub segments: usize,
    /// The blocks of the system besides the contents.
    pub system: usize,
    /// What n can be, the blocks in all.
    pub least_blocks: usize,
    pub most_blocks: usize,
    /// What c can be at most.
    pub most_contents: usize,
    /// The most UICs that a pack lists.
    pub most_uics: usize,
    /// Whether a pack has a free map.
    pub has_map: bool,
}

/// Every form that is known.
pub const ALL: &[Form] = &[Form::ONE, Form::TWO, Form::THREE];

impl Form {
    /// The form of 01: "n, the blocks in all, 16 to 1024", "c, 1 to 8".
    pub const ONE: Form = Form {
        word: 1,
        segments: 4,
        system: 1,
        least_blocks: 16,
        most_blocks: 1024,
        most_contents: 8,
        most_uics: 64,
        has_map: false,
    };

    /// The form with a free map (02, §7): "n to 4096 and c to 32, with c + 2 below n", "blocks 0 to c + 1 are system".
    pub const TWO: Form = Form { word: 2, system: 2, most_blocks: 4096, most_contents: 32, has_map: true, ..Form::ONE };

    /// The form of the 64-word disk (02, §11): "form 1 with blocks of 64 words", "at most 60 UICs, c to 32".
    pub const THREE: Form = Form { word: 3, segments: 1, most_contents: 32, most_uics: 60, ..Form::ONE };

    /// The form that a number names, which is any at all: nothing is cut to a word.
    pub fn of_word(word: usize) -> Option<Form> {
        ALL.iter().copied().find(|form| form.word as usize == word)
    }

    /// The form that word 0 of an image names.
    pub fn of_image(image: &[u8]) -> Option<Form> {
        if image.len() < 2 {
            return None;
        }
        Form::of_word(word(image, 0) as usize)
    }

    #[inline]
    pub const fn block_bytes(&self) -> usize {
        SEGMENT_BYTES * self.segments
    }

    pub const fn block_words(&self) -> usize {
        self.block_bytes() / 2
    }

    /// The bytes of a linked file's block behind the word that is its link.
    pub const fn payload_bytes(&self) -> usize {
        self.block_bytes() - 2
    }

    /// The entries of a block of the contents.
    pub const fn entries_per_block(&self) -> usize {
        self.block_bytes() / ENTRY_BYTES
    }

    /// The block at which the bodies begin; all below are the system's.
    pub const fn first_body(&self, contents: usize) -> usize {
        self.system + contents
    }

    /// The block that is the free map, which is the last of the system's; `None` in a form without one.
    pub fn map_block(&self, contents: usize) -> Option<usize> {
        self.has_map.then(|| self.first_body(contents) - 1)
    }

    /// Whether n can be so many.
    pub fn is_blocks(&self, blocks: usize) -> bool {
        (self.least_blocks..=self.most_blocks).contains(&blocks)
    }

    /// Whether c can be so many on a pack of so many blocks, of which one at least is a body.
    pub fn is_contents(&self, contents: usize, blocks: usize) -> bool {
        (LEAST_CONTENTS..=self.most_contents).contains(&contents) && self.first_body(contents) < blocks
    }
}
