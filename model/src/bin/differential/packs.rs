//! Consistent packs, written word by word and not by requests, so that all states occur.

use crate::binaries;
use crate::random::Random;
use crate::text;
use model::conversions::radpk;
use model::pack::entry::{self, Entry, CONTIGUOUS, EXTEND, LINKED, OUTPUT, UPDATE};
use model::pack::form::{Form, ALL, LEAST_CONTENTS};
use model::pack::header::FIRST_UIC;
use model::pack::map;
use model::words::{set_word, word};
use std::ops::Range;

/// Few names, extensions and UICs, so that they collide.
pub const NAMES: [&str; 7] = ["A", "FREQ", "ABC123", "9", "Z9Z9Z9", "AB", "FREQ1"];
pub const EXTENSIONS: [&str; 4] = ["", "DAT", "B", "99"];
pub const UICS: [u16; 9] = [0o11410, 0o11411, 0o5004, 0o5010, 0o5, 0o2400, 0o177777, 0o11400, 0o400];

/// What can be seen of a consistent pack.
pub struct Seen {
    pub form: Form,
    pub blocks: usize,
    pub contents: usize,
    pub uics: Vec<u16>,
    pub files: Vec<Entry>,
}

impl Seen {
    pub fn of(image: &[u8]) -> Seen {
        let form = Form::of_image(image).expect("the pack is consistent");
        let contents = word(image, 2) as usize;
        let entries = (0..contents * form.entries_per_block()).map(|index| form.entry(image, index));
        Seen {
            form,
            blocks: word(image, 1) as usize,
            contents,
            uics: (0..word(image, 3) as usize).map(|index| word(image, FIRST_UIC + index)).collect(),
            files: entries.filter(|bytes| !entry::is_empty(bytes)).map(Entry::read).collect(),
        }
    }

    /// How many entries there are.
    pub fn entries(&self) -> usize {
        self.contents * self.form.entries_per_block()
    }

    /// The entries that are used.
    pub fn used(&self, image: &[u8]) -> Vec<usize> {
        (0..self.entries()).filter(|&index| !entry::is_empty(self.form.entry(image, index))).collect()
    }

    /// The blocks that are not the system's.
    pub fn bodies(&self) -> Range<usize> {
        self.form.first_body(self.contents)..self.blocks
    }

    /// How many blocks are free: "c + 1, the stored lengths and the free blocks .. add to n", and with a map c + 2.
    pub fn free(&self) -> usize {
        self.bodies().len() - self.files.iter().map(|file| file.length as usize).sum::<usize>()
    }
}

/// The three words of a name and an extension.
pub fn packed(name: &str, extension: &str) -> [u16; 3] {
    let characters = format!("{name:6}{extension:3}");
    let word = |at: usize| radpk(&characters.as_bytes()[at..at + 3]).expect("they are of the set") as u16;
    [word(0), word(3), word(6)]
}

/// The blocks and contents of a new pack: small mostly, and sometimes at the limits.
pub fn measures(random: &mut Random, form: Form) -> (usize, usize) {
    let blocks = match random.below(60) {
        0 => form.most_blocks,
        1 => random.between(form.least_blocks, form.most_blocks),
        2..=12 => form.least_blocks,
        _ => random.between(form.least_blocks, 4 * form.least_blocks),
    };
    // One block at least is a body.
    let most = form.most_contents.min(blocks - form.first_body(1));
    let of_entries = |entries: usize| entries.div_ceil(form.entries_per_block());
    let contents = match random.below(10) {
        0 => most,
        1 => random.between(LEAST_CONTENTS, most),
        2 | 3 => of_entries(32),
        _ => of_entries(16),
    };
    (blocks, contents)
}

/// A list of UICs for a new pack.
pub fn uics(random: &mut Random, form: Form) -> Vec<u16> {
    let mut uics = UICS.to_vec();
    random.shuffle(&mut uics);
    match random.below(20) {
        0 => uics.clear(),
        1 => {
            uics.extend((0..form.most_uics as u16).map(|index| 0o20000 + 3 * index));
            uics.truncate(form.most_uics);
        }
        _ => uics.truncate(random.between(1, 4)),
    }
    uics
}

/// A consistent pack, of any form.
pub fn consistent(random: &mut Random) -> Vec<u8> {
    let form = random.pick(ALL);
    let (blocks, contents) = measures(random, form);
    let uics = uics(random, form);
    let mut image = random.bytes(form.block_bytes() * blocks);
    text::fill(random, form, &mut image);
    image[..form.block_bytes() * form.first_body(contents)].fill(0);
    for (index, value) in [form.word, blocks as u16, contents as u16, uics.len() as u16].into_iter().enumerate() {
        set_word(&mut image, index, value);
    }
    for (index, &uic) in uics.iter().enumerate() {
        set_word(&mut image, FIRST_UIC + index, uic);
    }
    let empty = Seen::of(&image);
    let free = if uics.is_empty() { empty.bodies().collect() } else { files(random, &mut image, &empty) };
    write_map(&mut image, &empty, &free);
    binaries::fill(random, &mut image);
    image
}

/// The map of a form that has one, by what was left free (02, §7).
fn write_map(image: &mut [u8], empty: &Seen, free: &[usize]) {
    if let Some(number) = empty.form.map_block(empty.contents) {
        let map = empty.form.block_mut(image, number);
        (0..empty.blocks).for_each(|block| map::set(map, block, true));
        free.iter().for_each(|&block| map::set(map, block, false));
    }
}

/// Fills the contents of a pack: from no file to as many as there are entries, and sometimes so that no block is free. Gives
/// the blocks that are left.
fn files(random: &mut Random, image: &mut [u8], empty: &Seen) -> Vec<usize> {
    let entries = empty.entries();
    let used = match random.below(8) {
        0 => 0,
        1 | 2 => entries,
        3 => entries - 1,
        _ => random.between(1, entries),
    };
    let tight = random.chance(1, 3);
    let mut slots: Vec<usize> = (0..entries).collect();
    random.shuffle(&mut slots);
    let mut free: Vec<usize> = empty.bodies().collect();
    random.shuffle(&mut free);
    let mut keys = Vec::new();
    for (count, &slot) in slots[..used].iter().enumerate() {
        let (name, uic) = another(random, &mut keys, &empty.uics, slot);
        let share = free.len() / (used - count);
        let the_rest = tight && count + 1 == used;
        let kind = if the_rest || free.is_empty() || random.chance(1, 2) { LINKED } else { CONTIGUOUS };
        let held = if kind == CONTIGUOUS {
            run(random, &mut free, share)
        } else {
            let length = if the_rest { free.len() } else { random.below(2 * share + 2).min(free.len()) };
            chain(empty.form, image, &mut free, length)
        };
        file(random, name, uic, kind, &held).write(empty.form.entry_mut(image, slot));
    }
    free
}

/// A file of some blocks.
fn file(random: &mut Random, name: [u16; 3], uic: u16, kind: u16, held: &[usize]) -> Entry {
    let (writer, readers) = opens(random, kind);
    Entry {
        name1: name[0],
        name2: name[1],
        extension: name[2],
        uic,
        protect: protect(random),
        kind,
        first: held.first().copied().unwrap_or(0) as u16,
        length: held.len() as u16,
        last: held.last().copied().unwrap_or(0) as u16,
        writer,
        readers,
    }
}

/// A name with its extension, and a UIC, that no file has yet.
fn another(random: &mut Random, keys: &mut Vec<([u16; 3], u16)>, uics: &[u16], slot: usize) -> ([u16; 3], u16) {
    let uic = random.pick(uics);
    let mut name = packed(random.pick(&NAMES), random.pick(&EXTENSIONS));
    if keys.contains(&(name, uic)) {
        name = packed(&format!("F{slot}"), "");
    }
    keys.push((name, uic));
    (name, uic)
}

/// Takes as many free blocks, each with a link to the next.
fn chain(form: Form, image: &mut [u8], free: &mut Vec<usize>, length: usize) -> Vec<usize> {
    let held = free.split_off(free.len() - length);
    for (place, &block) in held.iter().enumerate() {
        let next = held.get(place + 1).copied().unwrap_or(0);
        set_word(form.block_mut(image, block), 0, next as u16);
    }
    held
}

/// Takes some free blocks in a row, at least one.
fn run(random: &mut Random, free: &mut Vec<usize>, share: usize) -> Vec<usize> {
    let first = random.pick(free);
    let most = random.between(1, 2 * share + 1);
    let mut held: Vec<usize> = Vec::new();
    while held.len() < most && free.contains(&(first + held.len())) {
        held.push(first + held.len());
    }
    free.retain(|block| !held.contains(block));
    held
}

fn protect(random: &mut Random) -> u16 {
    match random.below(8) {
        0 | 1 => 0,
        2 => 3,
        3 => 0o11,
        4 => 0o100 + random.below(64) as u16,
        _ => random.below(256) as u16,
    }
}

/// A writer that the kind can have, and readers, often as many as there can be.
fn opens(random: &mut Random, kind: u16) -> (u16, u16) {
    let writers: &[u16] = if kind == CONTIGUOUS { &[0, 0, UPDATE] } else { &[0, 0, 0, OUTPUT, EXTEND] };
    let writer = random.pick(writers);
    let most = 62 - (writer != 0) as usize;
    let readers = match random.below(8) {
        0..=3 => 0,
        4 => random.between(1, 3),
        5 => most - random.below(2),
        6 => most,
        _ => random.below(most + 1),
    };
    (writer, readers as u16)
}

/// Gives a file of a consistent pack another protect code and other opens; the pack stays consistent.
pub fn edit(random: &mut Random, image: &mut [u8]) {
    let seen = Seen::of(image);
    let used = seen.used(image);
    if used.is_empty() {
        return;
    }
    let index = random.pick(&used);
    let mut file = Entry::read(seen.form.entry(image, index));
    if random.chance(1, 2) {
        file.protect = protect(random);
    }
    (file.writer, file.readers) = opens(random, file.kind);
    file.write(seen.form.entry_mut(image, index));
}
