//! Callers and files as a call names them: mostly such as are there, and some that are wrong.

use crate::packs::{packed, Seen, EXTENSIONS, NAMES, UICS};
use crate::random::Random;
use crate::wrong::HUGE;
use model::pack::entry::Entry;
use model::requests::File;

/// Words that are no part of a legal name, or only in some places.
const BAD_WORDS: [usize; 12] =
    [0, 1, 40, 29, 27 * 1600, 28 * 1600, 29 * 1600, 1600 + 1, 1600 + 29 * 40, 1600 + 40 + 27, 64000, 63999];

/// A file by one of the few names, mostly with a UIC that is listed.
pub fn pool_file(random: &mut Random, seen: &Seen) -> File {
    let name = packed(random.pick(&NAMES), random.pick(&EXTENSIONS));
    let listed = !seen.uics.is_empty() && random.chance(9, 10);
    let uic = if listed { random.pick(&seen.uics) } else { random.pick(&UICS) };
    named(name, uic)
}

fn named(name: [u16; 3], uic: u16) -> File {
    File { name1: name[0] as usize, name2: name[1] as usize, extension: name[2] as usize, uic: uic as usize }
}

/// A caller and a file to be created.
pub fn new_file(random: &mut Random, seen: &Seen) -> (usize, File) {
    let mut file = pool_file(random, seen);
    if random.chance(1, 2) {
        let name = packed(&format!("N{}", random.below(400)), "");
        file = named(name, file.uic as u16);
    }
    if random.chance(1, 12) && !seen.files.is_empty() {
        let there = random.pick(&seen.files);
        file = named([there.name1, there.name2, there.extension], there.uic);
    }
    with_caller(random, file)
}

/// A caller and a file that is mostly there, and mostly one that serves.
pub fn old_file(random: &mut Random, seen: &Seen, serves: impl Fn(&Entry) -> bool) -> (usize, File) {
    let file = present(random, seen, serves);
    with_caller(random, file)
}

/// The same with the UIC that its entry has.
pub fn present(random: &mut Random, seen: &Seen, serves: impl Fn(&Entry) -> bool) -> File {
    let serving: Vec<&Entry> = seen.files.iter().filter(|file| serves(file)).collect();
    let there = if !serving.is_empty() && random.chance(4, 5) {
        random.pick(&serving)
    } else if !seen.files.is_empty() && random.chance(4, 5) {
        &seen.files[random.below(seen.files.len())]
    } else {
        return pool_file(random, seen);
    };
    named([there.name1, there.name2, there.extension], there.uic)
}

/// Chooses who calls, and says the UIC as he might, sometimes wrong; sometimes the name is spoilt.
fn with_caller(random: &mut Random, mut file: File) -> (usize, File) {
    let owner = file.uic;
    let caller = match random.below(20) {
        0..=11 => owner,
        12 | 13 => owner ^ 1,
        14 | 15 => random.pick(&UICS) as usize,
        16 => random.below(65536),
        17 => 0,
        18 => owner + 65536,
        _ => random.pick(&HUGE),
    };
    file.uic = match random.below(24) {
        0 => owner + 65536,
        1 => random.pick(&HUGE),
        2 => 0,
        3 => random.pick(&UICS) as usize,
        4..=12 if caller == owner => 0,
        _ => owner,
    };
    if random.chance(1, 14) {
        spoil(random, &mut file);
    }
    (caller, file)
}

/// Changes a word of a name, mostly to one that is not legal there.
pub fn spoil(random: &mut Random, file: &mut File) {
    let word = match random.below(4) {
        0 => random.pick(&HUGE),
        1 => random.below(65536),
        _ => random.pick(&BAD_WORDS),
    };
    match random.below(4) {
        0 => file.name1 = word,
        1 => file.name2 = word,
        2 => file.extension = word,
        _ => file.name1 = file.name1.saturating_add(65536),
    }
}

/// The length of a file, or of one with its name.
pub fn length(seen: &Seen, file: &File) -> usize {
    let same = |there: &&Entry| there.name1 as usize == file.name1 && there.name2 as usize == file.name2;
    seen.files.iter().find(same).map_or(1, |there| there.length as usize)
}
