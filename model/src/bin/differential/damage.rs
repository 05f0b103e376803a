//! Damaged packs: a consistent one in which a little is wrong.

use crate::packs::{Seen, UICS};
use crate::random::Random;
use crate::wrong::device_block;
use model::pack::consistency::walk;
use model::pack::entry::{Entry, CONTIGUOUS};
use model::pack::form::{Form, ALL};
use model::pack::header::FIRST_UIC;
use model::pack::map;
use model::words::{set_word, word};

/// Damages a consistent pack. Some damage leaves a consistent pack behind, which is then to be taken as one.
pub fn damage(random: &mut Random, image: &mut Vec<u8>) {
    let seen = Seen::of(image);
    if seen.form.has_map && random.chance(1, 5) {
        return damage_map(random, image, &seen);
    }
    match random.below(20) {
        0..=2 => damage_size(random, image, &seen),
        3 => {
            let from = *seen.form.entry(image, random.below(seen.entries()));
            *seen.form.entry_mut(image, random.below(seen.entries())) = from;
        }
        4..=8 => {
            damage_blocks(random, image, &seen);
            // Where that is all, the files hold other blocks, and only the map says that it was not so.
            if random.chance(1, 2) && walk(image).is_some() {
                map::renew(image);
            }
        }
        9..=11 => damage_header(random, image, &seen),
        12..=16 => damage_entry(random, image, &seen),
        17 | 18 => damage_word(random, image, seen.form),
        _ => {
            damage_entry(random, image, &seen);
            damage_word(random, image, seen.form);
        }
    }
}

/// Makes a pack longer or shorter, sometimes by a block that the header knows of.
fn damage_size(random: &mut Random, image: &mut Vec<u8>, seen: &Seen) {
    let block = seen.form.block_bytes();
    match random.below(7) {
        0 => image.truncate(match random.below(4) {
            0 => random.below(6),
            1 => image.len() - block,
            _ => image.len() - 1 - random.below(3),
        }),
        1 => image.resize(device_block(random) * seen.blocks, 0),
        2 | 3 => {
            let more = random.pick(&[1, 2, block - 1, block, 2 * block]);
            image.extend(random.bytes(more));
        }
        4 => {
            image.extend(random.bytes(block));
            set_word(image, 1, seen.blocks as u16 + 1);
        }
        5 => damage_form(random, image, seen),
        _ => {
            image.truncate(image.len() - block);
            set_word(image, 1, seen.blocks as u16 - 1);
        }
    }
}

/// Says that a pack is of another form, with as many blocks or as many bytes.
fn damage_form(random: &mut Random, image: &mut Vec<u8>, seen: &Seen) {
    let form = random.pick(ALL);
    set_word(image, 0, form.word);
    if random.chance(1, 2) {
        image.resize(form.block_bytes() * seen.blocks, 0);
    } else {
        let blocks = image.len() / form.block_bytes();
        set_word(image, 1, blocks as u16);
    }
}

/// Gives a file other blocks, so that its three numbers and its links still agree with one another.
fn damage_blocks(random: &mut Random, image: &mut [u8], seen: &Seen) {
    let used = seen.used(image);
    if used.is_empty() {
        return damage_header(random, image, seen);
    }
    let index = random.pick(&used);
    let mut file = Entry::read(seen.form.entry(image, index));
    // A block at an edge of the bodies, or of another file.
    let other = random.pick(&seen.files);
    let (first_body, somewhere) = (seen.bodies().start, random.below(seen.blocks));
    let edges = [0, 1, first_body - 1, first_body, seen.blocks - 1, seen.blocks, somewhere, other.first as usize];
    let block = random.pick(&edges);
    if file.kind == CONTIGUOUS {
        let (first, length) = (file.first as usize, file.length as usize);
        let (first, length) = match random.below(4) {
            0 => (first, length + 1),
            1 => (first - 1, length + 1),
            2 => (block, length),
            _ => (block, random.between(1, seen.blocks)),
        };
        (file.first, file.length, file.last) = (first as u16, length as u16, (first + length - 1) as u16);
    } else {
        let chain = damaged_chain(random, chain(seen.form, image, &file), block, chain(seen.form, image, &other));
        write_links(image, seen, &chain);
        let [first, last] = [chain.first(), chain.last()].map(|block| block.copied().unwrap_or(0) as u16);
        (file.first, file.length, file.last) = (first, chain.len() as u16, last);
    }
    file.write(seen.form.entry_mut(image, index));
}

/// A chain with a block more, or another one, or one less, or the blocks of another file.
fn damaged_chain(random: &mut Random, mut chain: Vec<usize>, block: usize, other: Vec<usize>) -> Vec<usize> {
    match random.below(4) {
        0 => chain.push(block),
        1 => chain = vec![block],
        2 => {
            chain.pop();
        }
        _ => chain.extend(other),
    }
    chain
}

/// Links the blocks of a chain, each to the next.
fn write_links(image: &mut [u8], seen: &Seen, chain: &[usize]) {
    for (place, &block) in chain.iter().enumerate() {
        // A link that would be written into the contents is not: it is there or it is not.
        if seen.bodies().contains(&block) {
            let next = chain.get(place + 1).copied().unwrap_or(0);
            set_word(seen.form.block_mut(image, block), 0, next as u16);
        }
    }
}

/// The blocks of a file.
fn chain(form: Form, image: &[u8], file: &Entry) -> Vec<usize> {
    if file.kind == CONTIGUOUS {
        return (file.first as usize..=file.last as usize).collect();
    }
    let next = |&block: &usize| Some(form.link(image, block));
    std::iter::successors(Some(file.first as usize), next).take(file.length as usize).collect()
}

/// Changes a word of block 0, mostly to a number at the edge of what it may be.
fn damage_header(random: &mut Random, image: &mut [u8], seen: &Seen) {
    let form = seen.form;
    let last = form.block_words() - 1;
    let behind = (FIRST_UIC + seen.uics.len()).min(last);
    let at = match random.below(8) {
        0 => 0,
        1 => 1,
        2 => 2,
        3 => 3,
        4 | 5 => random.between(FIRST_UIC, behind),
        6 => last,
        _ => random.between(behind, last),
    };
    let old = word(image, at);
    let value = match random.below(4) {
        0 => old.wrapping_add(1),
        1 => old.wrapping_sub(1),
        _ => random.pick(&header_edges(seen, at)) as u16,
    };
    set_word(image, at, value);
}

/// Numbers at the edge of what a word of block 0 may be.
fn header_edges(seen: &Seen, at: usize) -> Vec<usize> {
    let Form { system, least_blocks, most_blocks, most_contents, most_uics, .. } = seen.form;
    match at {
        0 => vec![0, 1, 2, 3, 4, 257, 258],
        1 => vec![0, least_blocks - 1, least_blocks, most_blocks, most_blocks + 1],
        2 => {
            let most = seen.blocks - system;
            vec![0, 1, 2, most_contents, most_contents + 1, most_contents + 2, most - 1, most]
        }
        3 => vec![0, 1, most_uics - 1, most_uics, most_uics + 1],
        _ => vec![0, 0o11410, 0o5004, 1],
    }
}

/// Changes a word of an entry, mostly of one that is used and to a number at the edge of what it may be.
fn damage_entry(random: &mut Random, image: &mut [u8], seen: &Seen) {
    let (entries, used) = (seen.entries(), seen.used(image));
    let index = if used.is_empty() || random.chance(1, 8) { random.below(entries) } else { random.pick(&used) };
    let at = random.below(16);
    let from = word(seen.form.entry(image, random.below(entries)), at);
    let bytes = seen.form.entry_mut(image, index);
    let old = word(bytes, at);
    let edges: &[u16] = match at {
        0..=2 => &[0, 1, 29, 40, 1600, 1601, 1640, 27 * 1600, 28 * 1600 + 1, 1600 + 29 * 40, 63999, 64000, 65535],
        3 => &UICS,
        4 => &[0, 254, 255, 256, 257],
        5 | 9 => &[0, 1, 2, 3, 4],
        10 => &[0, 60, 61, 62, 63, 64, 65535],
        _ => &[0, 1, 2],
    };
    let value = match random.below(8) {
        0 => old.wrapping_add(1),
        1 => old.wrapping_sub(1),
        2 => from,
        _ => random.pick(edges),
    };
    set_word(bytes, at, value);
}

/// Turns over a bit of the map, or a few, mostly of blocks at the edges of what they mean; or writes a word of it.
fn damage_map(random: &mut Random, image: &mut [u8], seen: &Seen) {
    let number = seen.form.map_block(seen.contents).expect("the form has a map");
    let (bodies, bits) = (seen.bodies(), 8 * seen.form.block_bytes());
    let edges = [0, 1, 15, 16, number, bodies.start, bodies.end - 1, bodies.end, bodies.end + 1, bits - 1];
    for _ in 0..random.pick(&[1, 1, 1, 2, 3]) {
        let block = match random.below(4) {
            0 => random.pick(&edges) % bits,
            1 => random.below(bits),
            // From n up.
            2 => (bodies.end + random.below(40)) % bits,
            _ => random.below(seen.blocks),
        };
        let map = seen.form.block_mut(image, number);
        if random.chance(1, 8) {
            set_word(map, block / 16, random.number() as u16);
        } else {
            map::set(map, block, !map::bit(map, block));
        }
    }
}

/// Changes a word anywhere, mostly a link or what would be one.
fn damage_word(random: &mut Random, image: &mut [u8], form: Form) {
    let blocks = image.len() / form.block_bytes();
    let anywhere = random.chance(1, 4);
    let at = if anywhere { random.below(image.len() / 2) } else { form.block_words() * random.below(blocks) };
    let value = match random.below(4) {
        0 => 0,
        1 => random.number() as u16,
        _ => random.below(blocks + 2) as u16,
    };
    set_word(image, at, value);
}
