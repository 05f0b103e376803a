//! The report on an image (02, §6): the first rule of consistency that fails, and what it is about.

use crate::pack::blocks::BlockSet;
use crate::pack::consistency::examine;
use crate::pack::entry::{self, Entry, CONTIGUOUS, EXTEND, LINKED, MOST_OPENS, OUTPUT, UPDATE};
use crate::pack::form::Form;
use crate::pack::header::FIRST_UIC;
use crate::pack::{map, name};
use crate::words::word;

/// The rule, 0 where none fails, and what it names; 0 in a member that it does not name.
#[repr(C)]
#[derive(Clone, Copy, Debug, Default, PartialEq, Eq)]
pub struct ReportAnswer {
    pub rule: usize,
    pub entry: usize,
    pub word: usize,
    pub block: usize,
}

/// How many rules there are, with 0.
pub const RULES: usize = 11;

/// The rule of the map, which only some forms have.
pub const MAP: usize = 10;

/// A rule that fails.
#[derive(Clone, Copy, Debug, PartialEq, Eq)]
enum Fault {
    Size,
    Header { word: usize },
    Word { entry: usize, word: usize },
    Name { entry: usize },
    Extent { entry: usize, word: usize },
    Link { entry: usize, block: usize },
    Loop { entry: usize, block: usize },
    End { entry: usize, block: usize },
    Shared { entry: usize, block: usize },
    Map { block: usize },
}

impl From<Fault> for ReportAnswer {
    fn from(fault: Fault) -> ReportAnswer {
        let (rule, entry, word, block) = match fault {
            Fault::Size => (1, 0, 0, 0),
            Fault::Header { word } => (2, 0, word, 0),
            Fault::Word { entry, word } => (3, entry, word, 0),
            Fault::Name { entry } => (4, entry, 3, 0),
            Fault::Extent { entry, word } => (5, entry, word, 0),
            Fault::Link { entry, block } => (6, entry, 0, block),
            Fault::Loop { entry, block } => (7, entry, 0, block),
            Fault::End { entry, block } => (8, entry, 0, block),
            Fault::Shared { entry, block } => (9, entry, 0, block),
            Fault::Map { block } => (MAP, 0, 0, block),
        };
        ReportAnswer { rule, entry, word, block }
    }
}

/// "It says consistent exactly if document 01 says so".
pub fn report(image: &[u8]) -> ReportAnswer {
    if examine(image).is_ok() {
        return ReportAnswer::default();
    }
    first_fault(image).map_or_else(ReportAnswer::default, ReportAnswer::from)
}

fn first_fault(image: &[u8]) -> Option<Fault> {
    // Where word 0 names no form the blocks are taken to be those of form 1.
    let form = Form::of_image(image).unwrap_or(Form::ONE);
    if image.len() < 4 || image.len() != form.block_bytes() * word(image, 1) as usize {
        return Some(Fault::Size);
    }
    if let Some(word) = (0..form.block_words()).find(|&at| !is_header_word(form, image, at)) {
        return Some(Fault::Header { word });
    }
    let entries = form.entries_per_block() * word(image, 2) as usize;
    let mut files = Vec::new();
    for index in 0..entries {
        let bytes = form.entry(image, index);
        if !entry::is_empty(bytes) {
            let file = File { form, image, index, entry: Entry::read(bytes) };
            if let Some(fault) = file.word_fault(&files).or_else(|| file.blocks_fault()) {
                return Some(fault);
            }
            files.push(file);
        }
    }
    let holders = holders(image, &files);
    shared(&holders).or_else(|| map_fault(form, image, &holders))
}

/// A word of block 0, alone.
fn is_header_word(form: Form, image: &[u8], at: usize) -> bool {
    let value = word(image, at) as usize;
    let behind = FIRST_UIC + word(image, 3) as usize;
    match at {
        0 => value == form.word as usize,
        1 => form.is_blocks(value),
        2 => form.is_contents(value, word(image, 1) as usize),
        3 => value <= form.most_uics,
        // "of two equal UICs the later word"
        _ if at < behind => value != 0 && (FIRST_UIC..at).all(|before| word(image, before) as usize != value),
        _ => value == 0,
    }
}

/// An entry in use.
struct File<'a> {
    form: Form,
    image: &'a [u8],
    index: usize,
    entry: Entry,
}

impl File<'_> {
    /// Words 0 to 5 and 9 to 15 by number, the name with word 3.
    fn word_fault(&self, before: &[File]) -> Option<Fault> {
        let (x, entry) = (&self.entry, self.index);
        let fault = |word| Some(Fault::Word { entry, word });
        let listed = |uic| (0..word(self.image, 3) as usize).any(|at| word(self.image, FIRST_UIC + at) == uic);
        // Whatever legal name begins with a word, the name with blanks behind it is one.
        if !name::is_name(x.name1 as usize, 0) {
            return fault(0);
        }
        if !name::is_name(x.name1 as usize, x.name2 as usize) {
            return fault(1);
        }
        if !name::is_extension(x.extension as usize) {
            return fault(2);
        }
        if !listed(x.uic) {
            return fault(3);
        }
        let key = |file: &File| (file.entry.name1, file.entry.name2, file.entry.extension, file.entry.uic);
        if before.iter().any(|other| key(other) == key(self)) {
            return Some(Fault::Name { entry });
        }
        if x.protect > 255 {
            return fault(4);
        }
        let writers: &[u16] = match x.kind {
            CONTIGUOUS => &[0, UPDATE],
            LINKED => &[0, OUTPUT, EXTEND],
            _ => return fault(5),
        };
        if !writers.contains(&x.writer) {
            return fault(9);
        }
        if x.opens() > MOST_OPENS as u32 {
            return fault(10);
        }
        let bytes = self.form.entry(self.image, entry);
        (11..16).find(|&at| word(bytes, at) != 0).and_then(fault)
    }

    fn is_body(&self, block: usize) -> bool {
        block >= self.form.first_body(word(self.image, 2) as usize) && block < word(self.image, 1) as usize
    }

    /// "then the file's extent or chain".
    fn blocks_fault(&self) -> Option<Fault> {
        let Entry { kind, first, length, last, .. } = self.entry;
        let [first, length, last] = [first, length, last].map(usize::from);
        if kind == CONTIGUOUS {
            self.extent_fault(first, length, last)
        } else {
            self.chain_fault(first, length, last)
        }
    }

    fn extent_fault(&self, first: usize, length: usize, last: usize) -> Option<Fault> {
        let fault = |word| Some(Fault::Extent { entry: self.index, word });
        if !self.is_body(first) {
            fault(6)
        } else if length == 0 || !self.is_body(first + length - 1) {
            fault(7)
        } else if last != first + length - 1 {
            fault(8)
        } else {
            None
        }
    }

    fn chain_fault(&self, first: usize, length: usize, last: usize) -> Option<Fault> {
        let entry = self.index;
        let fault = |word| Some(Fault::Extent { entry, word });
        if length == 0 {
            return if first != 0 { fault(6) } else { (last != 0).then(|| fault(8)).flatten() };
        }
        if !self.is_body(first) {
            return fault(6);
        }
        let mut met = BlockSet::new(word(self.image, 1) as usize);
        met.insert(first);
        let mut block = first;
        for _ in 1..length {
            let next = self.form.link(self.image, block);
            if !self.is_body(next) {
                return Some(Fault::Link { entry, block });
            }
            if !met.insert(next) {
                return Some(Fault::Loop { entry, block: next });
            }
            block = next;
        }
        if block != last {
            return fault(8);
        }
        (self.form.link(self.image, block) != 0).then_some(Fault::End { entry, block })
    }

    /// The blocks of a file in which nothing is wrong.
    fn blocks(&self) -> Vec<usize> {
        let first = self.entry.first as usize;
        let contiguous = self.entry.kind == CONTIGUOUS;
        let next = |&block: &usize| Some(if contiguous { block + 1 } else { self.form.link(self.image, block) });
        std::iter::successors(Some(first), next).take(self.entry.length as usize).collect()
    }
}

/// The entries whose files reach each block, in stored order.
fn holders(image: &[u8], files: &[File]) -> Vec<Vec<usize>> {
    let mut holders = vec![Vec::new(); word(image, 1) as usize];
    for file in files {
        for block in file.blocks() {
            holders[block].push(file.index);
        }
    }
    holders
}

/// "a block is shared if two files reach it, and the second is named", the lowest block first.
fn shared(holders: &[Vec<usize>]) -> Option<Fault> {
    let (block, reached) = holders.iter().enumerate().find(|(_, reached)| reached.len() > 1)?;
    Some(Fault::Shared { entry: reached[1], block })
}

/// The lowest block whose bit of the map is wrong, "1 if system or held, 0 otherwise and for b from n up" (02, §7).
fn map_fault(form: Form, image: &[u8], holders: &[Vec<usize>]) -> Option<Fault> {
    let contents = word(image, 2) as usize;
    let map = form.block(image, form.map_block(contents)?);
    let system = |block: usize| block <= contents + 1;
    let held = |block: usize| holders.get(block).is_some_and(|reached| !reached.is_empty());
    let block = (0..8 * map.len()).find(|&block| map::bit(map, block) != (system(block) || held(block)))?;
    Some(Fault::Map { block })
}

#[cfg(test)]
mod tests {
    use super::*;
    use crate::pack::form::ALL;
    use crate::requests::{self, File as Name};
    use crate::words::set_word;

    const OWNER: usize = 0o23 * 256 + 0o10;

    /// Three contiguous files of two blocks each: 14 and 15, 12 and 13, 10 and 11.
    fn pack(form: Form) -> Vec<u8> {
        let mut image = vec![0; 16 * form.block_bytes()];
        let uics = (OWNER as u16).to_le_bytes();
        requests::format(&mut image, form.word as usize, 16, 1, &uics).expect("the arguments are good");
        for number in 1..4 {
            let file = Name { name1: 1600 * number, name2: 0, extension: 0, uic: 0 };
            requests::alloc(&mut image, OWNER, file, 0, 2 * form.segments).expect("there is room");
        }
        image
    }

    fn told(image: &[u8]) -> [usize; 4] {
        let ReportAnswer { rule, entry, word, block } = report(image);
        [rule, entry, word, block]
    }

    #[test]
    fn in_order() {
        for form in ALL {
            let mut image = pack(*form);
            assert_eq!(told(&image), [0; 4]);
            set_word(form.entry_mut(&mut image, 2), 6, 13);
            set_word(form.entry_mut(&mut image, 2), 8, 14);
            assert_eq!(told(&image), [9, 2, 0, 13]);
            set_word(form.entry_mut(&mut image, 1), 9, 3);
            assert_eq!(told(&image), [3, 1, 9, 0]);
            set_word(form.entry_mut(&mut image, 1), 0, 1600);
            assert_eq!(told(&image), [4, 1, 3, 0]);
            set_word(&mut image, 5, OWNER as u16);
            assert_eq!(told(&image), [2, 0, 5, 0]);
            image.pop();
            assert_eq!(told(&image), [1, 0, 0, 0]);
            for length in 0..8 {
                assert_eq!(told(&image[..length]), [1, 0, 0, 0]);
            }
        }
    }

    #[test]
    fn second_of_three() {
        for form in ALL {
            let mut image = pack(*form);
            for index in 1..3 {
                set_word(form.entry_mut(&mut image, index), 6, 14);
                set_word(form.entry_mut(&mut image, index), 8, 15);
            }
            assert_eq!(told(&image), [9, 1, 0, 14]);
        }
    }

    /// An image whose word 0 names no form has the size of a pack of form 1, or none.
    #[test]
    fn no_form() {
        let mut image = pack(Form::ONE);
        for word in [0, 4, 257, 65535] {
            set_word(&mut image, 0, word);
            assert_eq!(told(&image), [2, 0, 0, 0]);
            assert_eq!(told(&image[..image.len() / Form::ONE.segments]), [1, 0, 0, 0]);
        }
    }
    /// The size and the header of the 64-word disk are by its own bounds (02, §11).
    #[test]
    fn bounds_of_form_3() {
        let image = pack(Form::THREE);
        assert_eq!((image.len(), told(&image)), (2048, [0; 4]));
        for length in [512 * 16, 2047, 2049, 128 * 15, 128 * 17] {
            let mut resized = image.clone();
            resized.resize(length, 0);
            assert_eq!(told(&resized), [1, 0, 0, 0]);
        }
        for (at, value) in [(2, 0), (2, 15), (2, 32), (2, 33), (3, 61), (3, 64), (5, 1), (63, 1)] {
            let mut changed = image.clone();
            set_word(&mut changed, at, value);
            assert_eq!(told(&changed), [2, 0, at, 0]);
        }
        let mut largest = vec![0; 128 * 1024];
        requests::format(&mut largest, 3, 1024, 32, &[]).expect("the arguments are good");
        assert_eq!(told(&largest), [0; 4]);
        set_word(&mut largest, 2, 33);
        assert_eq!(told(&largest), [2, 0, 2, 0]);
        largest.extend([0; 128]);
        set_word(&mut largest, 1, 1025);
        assert_eq!(told(&largest), [2, 0, 1, 0]);
    }
}
