//! The free map and the larger packs (02, §7), with the numbers that the paper has. The map is read here bit by bit, and held to a walk over the files.

use super::{file, formats, OWNER};
use crate::answers::{code, WriteAnswer};
use crate::listing::listing;
use crate::pack::consistency::examine;
use crate::pack::entry::OUTPUT;
use crate::pack::form::Form;
use crate::pack::owner::Owner;
use crate::refusal::Refusal;
use crate::report::{report, ReportAnswer};
use crate::requests::{self, File};
use crate::words::{set_word, word};

/// An empty pack of form 2 for the owner, of 512n bytes.
fn formatted(blocks: usize, contents: usize) -> Vec<u8> {
    let mut image = vec![0o252; 512 * blocks];
    requests::format(&mut image, 2, blocks, contents, &(OWNER as u16).to_le_bytes()).expect("the arguments are good");
    image
}

/// The bit of a block in the map, which is block c + 1: bit b mod 16 of word b / 16.
fn bit(image: &[u8], block: usize) -> bool {
    let map = 256 * (word(image, 2) as usize + 1);
    word(image, map + block / 16) & 1 << (block % 16) != 0
}

/// Turns that bit over.
fn turn(image: &mut [u8], block: usize) {
    let at = 256 * (word(image, 2) as usize + 1) + block / 16;
    set_word(image, at, word(image, at) ^ 1 << (block % 16));
}

/// The map of a pack without files, laid by hand in block c + 1, if the image has that.
pub fn lay(image: &mut [u8], contents: usize) {
    for block in 0..=contents + 1 {
        if image.len() >= 512 * (contents + 2) {
            turn(image, block);
        }
    }
}

/// Every bit of the map is what a walk over the files says.
fn agrees(image: &[u8]) {
    let [blocks, contents] = [1, 2].map(|at| word(image, at) as usize);
    let mut taken = vec![false; 4096];
    taken[..contents + 2].fill(true);
    for entry in 0..16 * contents {
        let at = |index: usize| word(image, 256 + 16 * entry + index) as usize;
        let mut block = at(6);
        for _ in 0..at(7) {
            assert!(contents + 1 < block && block < blocks && !taken[block]);
            taken[block] = true;
            block = if at(5) == 1 { block + 1 } else { word(image, 256 * block) as usize };
        }
    }
    for (block, &taken) in taken.iter().enumerate() {
        assert_eq!(bit(image, block), taken, "block {block} of {blocks}");
    }
    assert!(examine(image).is_ok());
}

#[test]
fn format_makes_the_map_right_to_its_last_bit() {
    let measures = [(16, 1), (16, 13), (17, 14), (18, 15), (32, 14), (35, 32), (1024, 8), (4095, 1), (4096, 32)];
    for (blocks, contents) in measures {
        let image = formatted(blocks, contents);
        assert!(bit(&image, 0) && bit(&image, contents) && bit(&image, contents + 1) && !bit(&image, contents + 2));
        assert_eq!((bit(&image, 15), bit(&image, 16)), (contents >= 14, contents >= 15));
        assert!(!bit(&image, blocks - 1) && !bit(&image, blocks.min(4095)) && !bit(&image, 4095));
        agrees(&image);
        // "Format .. bodies untouched".
        assert!(image[512 * (contents + 2)..].iter().all(|&byte| byte == 0o252));
        let header = [2, blocks as u16, contents as u16, 1, OWNER as u16];
        assert_eq!([0, 1, 2, 3, 4].map(|at| word(&image, at)), header);
    }
    // The words of the map of the smallest pack, written out.
    let image = formatted(16, 1);
    assert_eq!((word(&image, 512), word(&image, 513), word(&image, 767)), (0b111, 0, 0));
}

/// "form 1 keeps 1024 and 8".
#[test]
fn form_1_keeps_its_bounds() {
    assert!(formats([1, 512], 1024, 8, 0) && !formats([1, 512], 1025, 8, 0) && !formats([1, 512], 1024, 9, 0));
    assert!(formats([2, 512], 1025, 8, 0) && formats([2, 512], 1024, 9, 0));
    assert!(!formats([2, 512], 16, 1, 65) && formats([2, 512], 16, 1, 64));
}

fn numbered(number: usize) -> File {
    file(&format!("F{number}"), "")
}

#[test]
fn a_request_that_takes_blocks_sets_their_bits() {
    let mut image = formatted(33, 1);
    let [a, b, c] = ["A", "B", "C"].map(|name| file(name, ""));
    // Blocks 15 to 32.
    assert_eq!(requests::alloc(&mut image, OWNER, a, 0, 4 * 18), Ok(15));
    assert_eq!([14, 15, 16, 31, 32, 33].map(|block| bit(&image, block)), [false, true, true, true, true, false]);
    agrees(&image);
    assert_eq!(requests::openo(&mut image, OWNER, b, 0), Ok(()));
    agrees(&image);
    assert_eq!(requests::linked_add(&mut image, OWNER, b, &[7; 510]), Ok(14));
    assert!(bit(&image, 14) && !bit(&image, 13));
    agrees(&image);
    // Two full blocks, and a byte of the third.
    let mut gather = [0; 510];
    let written = requests::line_write(&mut image, OWNER, b, 0, &[b'X'; 1021], &mut gather, 0);
    assert_eq!(WriteAnswer::from(written), WriteAnswer { code: 0, count: 1021, status: 1, filled: 1 });
    assert!(bit(&image, 13) && bit(&image, 12) && !bit(&image, 11));
    agrees(&image);
    assert_eq!(requests::line_end(&mut image, OWNER, b, &mut gather, 1), Ok(()));
    assert!(bit(&image, 11) && !bit(&image, 10));
    agrees(&image);
    // A write that fills no block, and an end that adds none.
    let written = requests::line_write(&mut image, OWNER, b, 0, b"X", &mut gather, 0);
    assert_eq!(WriteAnswer::from(written), WriteAnswer { code: 0, count: 1, status: 1, filled: 1 });
    assert_eq!(requests::line_end(&mut image, OWNER, b, &mut gather, 0), Ok(()));
    agrees(&image);
    // What takes nothing leaves the map.
    let map = image[1024..1536].to_vec();
    requests::close(&mut image, OWNER, b, OUTPUT as usize).expect("it was opened so");
    requests::renam(&mut image, OWNER, b, c, 3).expect("it is closed");
    requests::keep(&mut image, OWNER, c).expect("it is the owner's");
    requests::openu(&mut image, OWNER, a).expect("it is closed");
    requests::block_out(&mut image, OWNER, a, 17, &[7; 512]).expect("it is open");
    requests::close(&mut image, OWNER, a, 1).expect("it was opened so");
    assert_eq!(image[1024..1536], map);
    // DELET clears the bits, of a contiguous file and of a linked one.
    assert_eq!(requests::delet(&mut image, OWNER, a), Ok(()));
    assert_eq!([14, 15, 16, 31, 32, 33].map(|block| bit(&image, block)), [true, false, false, false, false, false]);
    agrees(&image);
    assert_eq!(requests::delet(&mut image, OWNER, c), Ok(()));
    assert_eq!((word(&image, 512), word(&image, 513), word(&image, 514)), (0b111, 0, 0));
    agrees(&image);
}

#[test]
fn append_leaves_the_map_and_finish_clears_its_bits() {
    let mut image = formatted(20, 1);
    let [a, b, c] = ["A", "B", "C"].map(|name| file(name, ""));
    for name in [a, b, a] {
        if requests::openo(&mut image, OWNER, name, 0).is_err() {
            requests::opene(&mut image, OWNER, name).expect("it is closed");
        }
        requests::linked_add(&mut image, OWNER, name, &[7; 510]).expect("there is room");
        let mode = requests::look(&image, OWNER, name).expect("it is there").writer;
        requests::close(&mut image, OWNER, name, mode as usize).expect("it was opened so");
    }
    requests::alloc(&mut image, OWNER, c, 0o200, 8).expect("there is room");
    let map = image[1024..1536].to_vec();
    assert_eq!(requests::appnd(&mut image, OWNER, b, a), Ok(()));
    assert_eq!(image[1024..1536], map);
    agrees(&image);
    assert_eq!(requests::finish(&mut image, OWNER), Ok(1));
    assert_eq!((word(&image, 512), word(&image, 513)), (0b1000_0000_0000_0111, 0b1));
    agrees(&image);
    assert_eq!(requests::finish(&mut image, OWNER), Ok(0));
    agrees(&image);
}

/// A refusal for want of room leaves the map as it leaves all.
#[test]
fn a_full_pack() {
    let mut image = formatted(16, 13);
    assert_eq!(requests::alloc(&mut image, OWNER, file("A", ""), 0, 5), Err(Refusal::NoRoom));
    assert_eq!(requests::alloc(&mut image, OWNER, file("A", ""), 0, 4), Ok(15));
    requests::openo(&mut image, OWNER, file("B", ""), 0).expect("there is an entry");
    assert_eq!((word(&image, 256 * 14), word(&image, 256 * 14 + 1)), (65535, 0));
    let full = image.clone();
    assert_eq!(requests::linked_add(&mut image, OWNER, file("B", ""), &[7; 510]), Err(Refusal::NoRoom));
    assert_eq!(requests::alloc(&mut image, OWNER, file("C", ""), 0, 1), Err(Refusal::NoRoom));
    assert_eq!(image, full);
    agrees(&image);
}

/// "ALLOC and linked add choose the same blocks as a walk would": as in form 1, where the bodies are as many.
#[test]
fn the_same_blocks_as_in_form_1() {
    let uics = (OWNER as u16).to_le_bytes();
    let mut packs = [Form::ONE, Form::TWO].map(|form| {
        let blocks = 30 + form.system;
        let mut image = vec![0; 512 * blocks];
        requests::format(&mut image, form.word as usize, blocks, 2, &uics).expect("the arguments are good");
        image
    });
    let mut taken = 0;
    for step in 0..600 {
        let name = numbered(step * 7 % 11);
        let [one, two] = packs.each_mut().map(|image| match step % 5 {
            0 => requests::alloc(image, OWNER, name, 0, 1 + step % 25),
            1 => requests::openo(image, OWNER, name, 0).map(|()| 0),
            2 | 3 => requests::linked_add(image, OWNER, name, &[step as u8; 510]),
            _ => {
                let _ = requests::close(image, OWNER, name, OUTPUT as usize);
                requests::delet(image, OWNER, name).map(|()| 0)
            }
        });
        assert_eq!(two, one.map(|block| if block == 0 { 0 } else { block + 1 }));
        taken += one.is_ok_and(|block| block != 0) as usize;
        agrees(&packs[1]);
    }
    assert!(taken > 100);
}

#[test]
fn the_largest_pack_is_filled_and_emptied() {
    let mut image = formatted(4096, 32);
    // 511 files of 7 blocks, and one that has the rest.
    for number in 0..511 {
        assert_eq!(requests::alloc(&mut image, OWNER, numbered(number), 0, 28), Ok(4089 - 7 * number));
    }
    agrees(&image);
    let last = numbered(511);
    assert_eq!(requests::openo(&mut image, OWNER, last, 0o200), Ok(()));
    assert_eq!(requests::openo(&mut image, OWNER, numbered(512), 0), Err(Refusal::NoEntry));
    for block in (34..4096 - 7 * 511).rev() {
        assert_eq!(requests::linked_add(&mut image, OWNER, last, &[7; 510]), Ok(block));
    }
    assert_eq!(requests::linked_add(&mut image, OWNER, last, &[7; 510]), Err(Refusal::NoRoom));
    assert!((0..4096).all(|block| bit(&image, block)));
    agrees(&image);
    assert_eq!(requests::owner(&image, 33), Ok(Owner::System));
    assert_eq!(requests::owner(&image, 34), Ok(Owner::Held { entry: 511, place: 484 }));
    assert_eq!(requests::owner(&image, 4095), Ok(Owner::Held { entry: 0, place: 6 }));
    assert_eq!(requests::owner(&image, 4096), Err(Refusal::NoBlock));
    for number in [0, 1, 255, 510] {
        assert_eq!(requests::delet(&mut image, OWNER, numbered(number)), Ok(()));
        agrees(&image);
    }
    assert_eq!([4081, 4082, 4095].map(|block| bit(&image, block)), [true, false, false]);
    assert_eq!(requests::finish(&mut image, OWNER), Ok(507));
    agrees(&image);
    assert_eq!(requests::close(&mut image, OWNER, last, OUTPUT as usize), Ok(()));
    assert_eq!(requests::delet(&mut image, OWNER, last), Ok(()));
    assert_eq!((0..4096).filter(|&block| bit(&image, block)).count(), 34);
    agrees(&image);
}

#[test]
fn the_largest_pack_full_of_one_file() {
    let mut image = formatted(4096, 1);
    let (a, b) = (file("A", ""), file("B", ""));
    assert_eq!(requests::alloc(&mut image, OWNER, a, 0, 4 * 4093 + 1), Err(Refusal::NoRoom));
    assert_eq!(requests::alloc(&mut image, OWNER, a, 0, 4 * 4093), Ok(3));
    assert!((0..4096).all(|block| bit(&image, block)));
    requests::openo(&mut image, OWNER, b, 0).expect("there is an entry");
    assert_eq!(requests::linked_add(&mut image, OWNER, b, &[7; 510]), Err(Refusal::NoRoom));
    assert_eq!(requests::delet(&mut image, OWNER, a), Ok(()));
    let text = vec![b'X'; 4093 * 510];
    let mut gather = [0; 510];
    let written = requests::line_write(&mut image, OWNER, b, 0, &text, &mut gather, 1);
    assert_eq!(WriteAnswer::from(written), WriteAnswer { code: 0, count: text.len(), status: 1, filled: 1 });
    assert_eq!(code(requests::line_end(&mut image, OWNER, b, &mut gather, 1)), 0o42);
    agrees(&image);
    let found = requests::look(&image, OWNER, b).expect("it is there");
    assert_eq!((found.first, found.length, found.last), (4095, 4093, 3));
}

/// A bit that is wrong: every request on the pack is refused, and the report names the lowest such block, also one from n up.
#[test]
fn a_map_that_is_wrong() {
    let mut image = formatted(40, 1);
    requests::alloc(&mut image, OWNER, file("A", ""), 0, 8).expect("there is room");
    let told = |image: &[u8]| {
        let ReportAnswer { rule, entry, word, block } = report(image);
        [rule, entry, word, block]
    };
    for block in (0..4096).rev() {
        turn(&mut image, block);
        assert_eq!(told(&image), [10, 0, 0, block]);
        if block % 97 == 0 {
            assert_eq!(requests::look(&image, OWNER, file("A", "")), Err(Refusal::Inconsistent));
            assert_eq!(requests::finish(&mut image, OWNER), Err(Refusal::Inconsistent));
            assert_eq!(listing(&image), "REFUSED 40\n");
        }
    }
    // All bits are wrong now. They are put right from below.
    for block in 0..4096 {
        assert_eq!(told(&image), [10, 0, 0, block]);
        turn(&mut image, block);
    }
    assert_eq!(told(&image), [0; 4]);
    agrees(&image);
    // "checked last": behind a block that two files have.
    turn(&mut image, 0);
    let entry: Vec<u8> = image[512..544].to_vec();
    image[544..576].copy_from_slice(&entry);
    set_word(&mut image, 256 + 16, 1600 * 2);
    assert_eq!(told(&image), [9, 1, 0, 38]);
    set_word(&mut image, 2, 0);
    assert_eq!(told(&image), [2, 0, 2, 0]);
}

/// The bounds of n and c, as the report tells of them.
#[test]
fn faults_of_the_header() {
    let told = |length: usize, words: [usize; 3]| {
        let mut image = vec![0; length];
        for (at, value) in words.into_iter().enumerate() {
            set_word(&mut image, at, value as u16);
        }
        lay(&mut image, words[2]);
        let ReportAnswer { rule, entry, word, block } = report(&image);
        [rule, entry, word, block]
    };
    for (blocks, contents, fault) in [
        (16, 1, [0; 4]),
        (15, 1, [2, 0, 1, 0]),
        (4096, 32, [0; 4]),
        (4097, 1, [2, 0, 1, 0]),
        (64, 0, [2, 0, 2, 0]),
        (64, 33, [2, 0, 2, 0]),
        (16, 13, [0; 4]),
        (16, 14, [2, 0, 2, 0]),
        (34, 32, [2, 0, 2, 0]),
        (35, 32, [0; 4]),
    ] {
        assert_eq!(told(512 * blocks, [2, blocks, contents]), fault, "{blocks} {contents}");
    }
    assert_eq!(told(128 * 64, [2, 64, 1]), [1, 0, 0, 0]);
    assert_eq!(told(512 * 1025, [1, 1025, 1]), [2, 0, 1, 0]);
    assert_eq!(told(512 * 64, [1, 64, 9]), [2, 0, 2, 0]);
}

/// FREE is n - (c + 2) less the lengths.
#[test]
fn listing_is_the_same_text() {
    let mut image = formatted(16, 1);
    assert_eq!(requests::alloc(&mut image, OWNER, file("FREQ", "DAT"), 3, 9), Ok(13));
    assert_eq!(listing(&image), "BLOCKS 00016 FREE 00010\nFREQ  .DAT C 00003 [023,010] 003\n");
    assert_eq!(listing(&formatted(128, 32)), "BLOCKS 00128 FREE 00094\n");
    assert_eq!(listing(&formatted(129, 32)), "REFUSED 40\n");
}

/// Word 0 decides. In form 1 the block of a map is free, and may hold anything; in form 2 it must be the map.
#[test]
fn the_image_decides() {
    for (form, other) in [(1, 2), (2, 1)] {
        let mut image = vec![0; 512 * 16];
        let uics = (OWNER as u16).to_le_bytes();
        requests::format(&mut image, form, 16, 1, &uics).expect("the arguments are good");
        requests::alloc(&mut image, OWNER, file("A", ""), 0, 1).expect("there is room");
        set_word(&mut image, 0, other as u16);
        assert_eq!(examine(&image).is_ok(), other == 1);
        assert_eq!(requests::owner(&image, 2).ok(), (other == 1).then_some(Owner::Free));
    }
}
