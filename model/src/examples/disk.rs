//! The 64-word disk (02, §11), with the numbers that the paper has.

use super::{file, OWNER};
use crate::answers::{code, Answer, ReadAnswer, WriteAnswer};
use crate::listing::listing;
use crate::pack::consistency::examine;
use crate::pack::entry::OUTPUT;
use crate::pack::form::{Form, ALL};
use crate::pack::owner::Owner;
use crate::refusal::Refusal;
use crate::requests::{self, File};
use crate::words::{set_word, word};

/// An empty pack of form 3 for the owner, of 128n bytes.
fn formatted(blocks: usize, contents: usize) -> Vec<u8> {
    let mut image = vec![0o252; 128 * blocks];
    requests::format(&mut image, 3, blocks, contents, &(OWNER as u16).to_le_bytes()).expect("the arguments are good");
    image
}

fn numbered(number: usize) -> File {
    file(&format!("F{number}"), "")
}

#[test]
fn blocks_payloads_and_entries() {
    let numbers =
        |form: &Form| [form.word as usize, form.block_bytes(), form.payload_bytes(), form.entries_per_block()];
    assert_eq!(ALL.iter().map(numbers).collect::<Vec<_>>(), [[1, 512, 510, 16], [2, 512, 510, 16], [3, 128, 126, 4]]);
}

/// "ALLOC of N takes N blocks."
#[test]
fn a_segment_is_a_block() {
    for segments in 1..=14 {
        let mut image = formatted(16, 1);
        assert_eq!(requests::alloc(&mut image, OWNER, file("A", ""), 0, segments), Ok(16 - segments));
        let found = requests::look(&image, OWNER, file("A", "")).expect("it is there");
        assert_eq!((found.first, found.length, found.last), (16 - segments as u16, segments as u16, 15));
        assert!(image[128 * (16 - segments)..].iter().all(|&byte| byte == 0));
        assert!(image[256..128 * (16 - segments)].iter().all(|&byte| byte == 0o252));
    }
    assert_eq!(requests::alloc(&mut formatted(16, 1), OWNER, file("A", ""), 0, 15), Err(Refusal::NoRoom));
}

#[test]
fn listing_is_the_same_text() {
    let mut image = formatted(16, 1);
    assert_eq!(requests::alloc(&mut image, OWNER, file("FREQ", "DAT"), 3, 9), Ok(7));
    assert_eq!(listing(&image), "BLOCKS 00016 FREE 00005\nFREQ  .DAT C 00009 [023,010] 003\n");
    assert_eq!(listing(&formatted(512, 1)), "BLOCKS 00512 FREE 00510\n");
    assert_eq!(listing(&formatted(513, 1)), "REFUSED 40\n");
}

/// 60 UICs are all that block 0 has room for; of the 61st the word would be the first of an entry.
#[test]
fn sixty_uics_fill_block_0() {
    let uics: Vec<u8> = (1..=61u16).flat_map(u16::to_le_bytes).collect();
    let mut image = vec![0o252; 128 * 16];
    assert_eq!(requests::format(&mut image, 3, 16, 1, &uics), Err(Refusal::Argument));
    assert!(image.iter().all(|&byte| byte == 0o252));
    assert_eq!(requests::format(&mut image, 3, 16, 1, &uics[..120]), Ok(()));
    assert_eq!((word(&image, 63), word(&image, 64)), (60, 0));
    assert_eq!(requests::openo(&mut image, 60, file("A", ""), 0), Ok(()));
    assert_eq!(requests::openo(&mut image, 61, file("A", ""), 0), Err(Refusal::NoUser));
    set_word(&mut image, 3, 61);
    assert_eq!(requests::openo(&mut image, 60, file("B", ""), 0), Err(Refusal::Inconsistent));
}

/// "c to 32 with c + 1 below n".
#[test]
fn one_block_is_a_body() {
    let formats = |blocks: usize, contents: usize| {
        let mut image = vec![0; 128 * blocks];
        requests::format(&mut image, 3, blocks, contents, &(OWNER as u16).to_le_bytes())?;
        requests::alloc(&mut image, OWNER, file("A", ""), 0, 1)
    };
    assert_eq!(formats(16, 14), Ok(15));
    assert_eq!(formats(16, 15), Err(Refusal::Argument));
    assert_eq!(formats(33, 31), Ok(32));
    assert_eq!(formats(33, 32), Err(Refusal::Argument));
    assert_eq!(formats(34, 32), Ok(33));
    assert_eq!(formats(35, 33), Err(Refusal::Argument));
    let mut image = formatted(16, 14);
    set_word(&mut image, 2, 15);
    assert!(examine(&image).is_err());
}

/// "An image's form decides, never the caller." The same bytes are 16 blocks of the one form and 64 of the other.
#[test]
fn the_image_decides() {
    for (form, blocks, other) in [(1, 16, 3), (3, 64, 1)] {
        let mut image = vec![0; 8192];
        let uics = (OWNER as u16).to_le_bytes();
        assert_eq!(requests::format(&mut image, other, blocks, 1, &uics), Err(Refusal::Argument));
        assert_eq!(requests::format(&mut image, form, blocks, 1, &uics), Ok(()));
        assert_eq!(requests::alloc(&mut image, OWNER, file("A", ""), 0, 4), Ok(if form == 1 { 15 } else { 60 }));
        set_word(&mut image, 0, other as u16);
        assert_eq!(requests::look(&image, OWNER, file("A", "")), Err(Refusal::Inconsistent));
    }
}

/// A pack with a contiguous file A that is open for update, and a linked one B of a block that is open for input and extension.
fn opened(form: Form) -> Vec<u8> {
    let mut image = super::smallest(form);
    let [a, b] = ["A", "B"].map(|name| file(name, ""));
    requests::alloc(&mut image, OWNER, a, 0, 1).expect("there is room");
    requests::openu(&mut image, OWNER, a).expect("it is closed");
    requests::openo(&mut image, OWNER, b, 0).expect("there is an entry");
    requests::linked_add(&mut image, OWNER, b, &vec![b'X'; form.payload_bytes()]).expect("there is room");
    requests::close(&mut image, OWNER, b, OUTPUT as usize).expect("it was opened so");
    requests::openi(&mut image, OWNER, b).expect("it is closed");
    requests::opene(&mut image, OWNER, b).expect("it has no writer");
    image
}

/// The codes of all transfers with a buffer of a block's size and one of a payload's; a refusal keeps the image and the buffers.
fn transfers(image: &[u8], block: usize, payload: usize, filled: usize) -> [usize; 6] {
    let [a, b] = ["A", "B"].map(|name| file(name, ""));
    let (mut after, mut read, mut part, mut gather) =
        (image.to_vec(), vec![7; block], vec![7; payload], vec![7; payload]);
    let codes = [
        code(requests::block_in(&after, OWNER, a, 0, &mut read)),
        code(requests::block_out(&mut after, OWNER, a, 0, &vec![7; block])),
        code(requests::linked_read(&after, OWNER, b, 0, &mut part)),
        Answer::from(requests::linked_add(&mut after, OWNER, b, &vec![7; payload])).code,
        WriteAnswer::from(requests::line_write(&mut after, OWNER, b, 0, b"A\n", &mut gather, filled)).code,
        code(requests::line_end(&mut after, OWNER, b, &mut gather, filled)),
    ];
    if !codes.contains(&0) {
        let buffers = [read, part, gather].concat();
        assert!(after == image && buffers.iter().all(|&byte| byte == 7));
    }
    codes
}

/// "block buffers of 128, §1's .. of 126 filled to 125"; "41 where a buffer has the other device's size".
#[test]
fn buffers_of_each_device() {
    let (one, three) = (opened(Form::ONE), opened(Form::THREE));
    assert_eq!(transfers(&three, 128, 126, 125), [0; 6]);
    assert_eq!(transfers(&three, 512, 510, 125), [0o41; 6]);
    assert_eq!(transfers(&three, 128, 126, 126), [0, 0, 0, 0, 0o41, 0o41]);
    assert_eq!(transfers(&one, 512, 510, 509), [0; 6]);
    assert_eq!(transfers(&one, 128, 126, 125), [0o41; 6]);
}

/// Four entries a block, and 32 blocks of them.
#[test]
fn files_of_the_most_contents() {
    let mut image = formatted(1024, 32);
    for number in 0..128 {
        assert_eq!(requests::alloc(&mut image, OWNER, numbered(number), 0, 1), Ok(1023 - number));
    }
    assert_eq!(requests::alloc(&mut image, OWNER, numbered(128), 0, 1), Err(Refusal::NoEntry));
    assert_eq!(requests::openo(&mut image, OWNER, numbered(128), 0), Err(Refusal::NoEntry));
    for number in 0..128 {
        let found = requests::look(&image, OWNER, numbered(number)).expect("it is there");
        let stored = word(&image[128 + 32 * number..], 6);
        assert_eq!((found.first as usize, stored as usize), (1023 - number, 1023 - number));
        assert_eq!(requests::owner(&image, 1023 - number), Ok(Owner::Held { entry: number, place: 0 }));
    }
    assert_eq!(requests::owner(&image, 32), Ok(Owner::System));
    assert_eq!(requests::owner(&image, 33), Ok(Owner::Free));
    // The lowest entry that was emptied is filled.
    for number in [127, 5] {
        assert_eq!(requests::delet(&mut image, OWNER, numbered(number)), Ok(()));
    }
    assert_eq!(requests::alloc(&mut image, OWNER, numbered(128), 0, 1), Ok(1018));
    assert_eq!(requests::owner(&image, 1018), Ok(Owner::Held { entry: 5, place: 0 }));
    assert_eq!(requests::finish(&mut image, OWNER), Ok(127));
    assert!(image[128..128 * 33].iter().all(|&byte| byte == 0) && examine(&image).is_ok());
}

#[test]
fn the_largest_pack_full_of_one_contiguous_file() {
    let mut image = formatted(1024, 1);
    let [a, b] = ["A", "B"].map(|name| file(name, ""));
    assert_eq!(requests::alloc(&mut image, OWNER, a, 0, 1023), Err(Refusal::NoRoom));
    assert_eq!(requests::alloc(&mut image, OWNER, a, 0, 1022), Ok(2));
    assert!(image[256..].iter().all(|&byte| byte == 0));
    assert_eq!(requests::owner(&image, 1023), Ok(Owner::Held { entry: 0, place: 1021 }));
    assert_eq!(requests::owner(&image, 1024), Err(Refusal::NoBlock));
    assert_eq!(requests::alloc(&mut image, OWNER, b, 0, 1), Err(Refusal::NoRoom));
    requests::openo(&mut image, OWNER, b, 0).expect("there is an entry");
    assert_eq!(requests::linked_add(&mut image, OWNER, b, &[7; 126]), Err(Refusal::NoRoom));
    requests::openu(&mut image, OWNER, a).expect("it is closed");
    assert_eq!(requests::block_out(&mut image, OWNER, a, 1021, &[7; 128]), Ok(()));
    assert_eq!(image[131072 - 129..], [vec![0], vec![7; 128]].concat());
    assert_eq!(requests::block_out(&mut image, OWNER, a, 1022, &[7; 128]), Err(Refusal::NoBlock));
}

#[test]
fn the_largest_pack_full_of_one_linked_file() {
    let mut image = formatted(1024, 1);
    let linked = file("A", "");
    requests::openo(&mut image, OWNER, linked, 0).expect("there is an entry");
    for block in (2..1024).rev() {
        assert_eq!(requests::linked_add(&mut image, OWNER, linked, &[block as u8; 126]), Ok(block));
    }
    assert_eq!(requests::linked_add(&mut image, OWNER, linked, &[7; 126]), Err(Refusal::NoRoom));
    let found = requests::look(&image, OWNER, linked).expect("it is there");
    assert_eq!((found.first, found.length, found.last), (1023, 1022, 2));
    assert_eq!(requests::owner(&image, 2), Ok(Owner::Held { entry: 0, place: 1021 }));
    requests::close(&mut image, OWNER, linked, OUTPUT as usize).expect("it was opened so");
    requests::openi(&mut image, OWNER, linked).expect("it is closed");
    let mut payload = [0; 126];
    assert_eq!(requests::linked_read(&image, OWNER, linked, 1021, &mut payload), Ok(()));
    assert_eq!(payload, [2; 126]);
    assert_eq!(requests::linked_read(&image, OWNER, linked, 1022, &mut payload), Err(Refusal::NoBlock));
    let end = 1022 * 126;
    for (position, code, count) in [(end - 2, 0, 2), (end, 0, 0), (end + 1, 0o44, 0)] {
        let answer = ReadAnswer::from(requests::line_read(&image, OWNER, linked, 0, position, &mut [0; 3]));
        let (status, position) = if code == 0 { (64, end) } else { (0, 0) };
        assert_eq!(answer, ReadAnswer { code, count, status, position });
    }
}
