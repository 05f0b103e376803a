//! The examples of 01, those marked P and the others, and what readings of it are easily got wrong.

mod binary;
mod disk;
mod finish;
mod lines;
mod many;
mod map;
mod moves;
mod writing;

use crate::answers::SpecificationAnswer;
use crate::command::{csi1, csi2, grammar, reading};
use crate::conversions::{bin2d, bin2o, d2bin, o2bin, radpk, radup};
use crate::listing::listing;
use crate::pack::consistency::examine;
use crate::pack::entry::{self, Entry, CONTIGUOUS, LINKED, OUTPUT};
use crate::pack::form::{Form, ALL, SEGMENT_BYTES};
use crate::pack::owner::Owner;
use crate::pack::rights::rights;
use crate::refusal::{LineRefusal, Refusal};
use crate::requests::{self, File};
use crate::words::{set_word, word};

/// The UICs of the examples.
const OWNER: usize = 0o23 * 256 + 0o10;
const STRANGER: usize = 0o12 * 256 + 0o4;

/// A file of the caller's.
fn file(name: &str, extension: &str) -> File {
    let name = format!("{name:6}");
    let extension = format!("{extension:3}");
    let packed = |characters: &str| radpk(characters.as_bytes()).expect("they are of the set");
    File { name1: packed(&name[..3]), name2: packed(&name[3..]), extension: packed(&extension), uic: 0 }
}

/// The blocks of contents of a pack of 16 entries.
fn contents(form: Form) -> usize {
    16 / form.entries_per_block()
}

/// An empty pack of so many blocks and of 16 entries.
fn pack(form: Form, blocks: usize, uics: &[usize]) -> Vec<u8> {
    let mut image = vec![0o252; blocks * form.block_bytes()];
    let uics: Vec<u8> = uics.iter().flat_map(|&uic| (uic as u16).to_le_bytes()).collect();
    requests::format(&mut image, form.word as usize, blocks, contents(form), &uics).expect("the arguments are good");
    image
}

/// Such a pack of 16 blocks, for the owner.
fn smallest(form: Form) -> Vec<u8> {
    pack(form, 16, &[OWNER])
}

/// The bodies of the smallest pack; the highest is block 15.
fn bodies(form: Form) -> usize {
    16 - form.first_body(contents(form))
}

fn specification(line: &str, side: usize, k: usize) -> SpecificationAnswer {
    csi2(line.as_bytes(), side, k, &mut [0; 384]).into()
}

fn place(line: &str) -> usize {
    match csi1(line.as_bytes(), &mut [0; 128]) {
        Err(LineRefusal { refusal: Refusal::Grammar, place }) => place,
        other => panic!("{line} should not be in the grammar: {other:?}"),
    }
}

#[test]
fn p1_to_p3_radix() {
    assert_eq!(radpk(b"KB "), Ok(17680));
    assert_eq!(17680, 0o042420);
    assert_eq!(radpk(b"DS1"), Ok(7191));
    assert_eq!(radpk(b"999"), Ok(63999));
    let mut buffer = *b"???";
    assert_eq!(radup(63999, &mut buffer), Ok(()));
    assert_eq!(&buffer, b"999");
    assert_eq!(radup(64000, &mut buffer), Err(Refusal::Conversion));
    assert_eq!(&buffer, b"999");
    assert_eq!(radpk(b"PR "), Ok(26320));
    assert_eq!(radpk(b"   "), Ok(0));
    assert_eq!(radup(29, &mut buffer), Err(Refusal::Conversion));
}

#[test]
fn p4_decimal() {
    let mut buffer = *b"?????";
    assert_eq!(d2bin(b"65535"), Ok(65535));
    assert_eq!(d2bin(b"65536"), Err(Refusal::Conversion));
    assert_eq!(bin2d(65535, &mut buffer), Ok(()));
    assert_eq!(&buffer, b"65535");
    assert_eq!(bin2d(65536, &mut buffer), Err(Refusal::Conversion));
    assert_eq!(bin2d(7, &mut buffer), Ok(()));
    assert_eq!(&buffer, b"00007");
}

#[test]
fn p5_octal() {
    let mut buffer = *b"??????";
    assert_eq!(o2bin(b"177777"), Ok(65535));
    assert_eq!(o2bin(b"200000"), Err(Refusal::Conversion));
    assert_eq!(bin2o(65535, &mut buffer), Ok(()));
    assert_eq!(&buffer, b"177777");
    assert_eq!(bin2o(0o200000, &mut buffer), Err(Refusal::Conversion));
}

#[test]
fn p6_empty_line() {
    assert_eq!(csi1(b"", &mut []), Ok(0));
    assert_eq!(specification("", 0, 0), SpecificationAnswer::default());
    assert_eq!(specification("", 0, 1).code, 0o51);
    assert_eq!(specification("", 1, 0).code, 0o51);
}

#[test]
fn p7_empty_sides() {
    assert_eq!(specification("<", 0, 0), SpecificationAnswer::default());
    assert_eq!(specification("<", 1, 0), SpecificationAnswer::default());
    assert_eq!(specification("<", 0, 1).code, 0o51);
    assert_eq!(specification("<", 1, 1).code, 0o51);
    assert_eq!(specification("<", 2, 0).code, 0o51);
}

#[test]
fn p8_reading() {
    let line = "DT1:FREQ.DAT<PR:";
    let output = SpecificationAnswer {
        present: 0b0111,
        device: 7200,
        unit: 1,
        name1: 10325,
        name2: 27200,
        extension: 6460,
        ..SpecificationAnswer::default()
    };
    assert_eq!(specification(line, 0, 0), output);
    let input = SpecificationAnswer { present: 0b0001, device: 26320, ..SpecificationAnswer::default() };
    assert_eq!(specification(line, 1, 0), input);
    assert_eq!(specification(line, 0, 1).code, 0o51);
}

#[test]
fn p9_to_p12_places() {
    assert_eq!(place("A<B<C"), 3);
    assert_eq!(place("ABCDEFG"), 6);
    assert_eq!(place("DT8:"), 3);
    assert_eq!(place("/S:"), 3);
    assert_eq!(place("ABC1234567,"), 10);
    assert_eq!(place(".DAT"), 0);
    assert_eq!(specification("A<B<C", 0, 0), SpecificationAnswer { code: 0o50, place: 3, ..Default::default() });
}

/// The refusal of a line with a number over its bound, by both; the place of no other refusal than 50 is given.
fn is_over(line: &str) {
    assert_eq!(csi1(line.as_bytes(), &mut [0; 128]), Err(Refusal::Number.into()), "{line}");
    for (side, k) in [(0, 0), (1, 0), (0, 9), (2, 0)] {
        assert_eq!(specification(line, side, k), SpecificationAnswer { code: 0o54, ..Default::default() }, "{line}");
    }
}

#[test]
fn bounds_of_numbers() {
    for line in ["DT10:", "DT401:", "A,B<C,DT10:", "[400,1]", "[1,400]", "[377,1],[1,0400]", "DT0007:,DT00010:"] {
        is_over(line);
    }
    is_over(&format!("DT{}:", "7".repeat(120)));
    assert_eq!(specification(&format!("DT{}7:", "0".repeat(100)), 0, 0).unit, 7);
    assert_eq!(specification("DT7:", 0, 0).unit, 7);
    let bounds = specification("[377,00377]", 0, 0);
    assert_eq!((bounds.group, bounds.user), (0o377, 0o377));
    assert_eq!(place("DT10:<A<"), 7);
    assert_eq!(place("<<DT10:"), 1);
    assert_eq!(csi1(b"DT10:", &mut [0; 4]), Err(Refusal::BufferShort.into()));
    assert_eq!(csi2(b"[400,1]/S", 0, 0, &mut []), Err(Refusal::Number.into()));
}

/// Whether Format takes these numbers. The check says the same of a header that has them.
fn formats([word, block]: [usize; 2], blocks: usize, contents: usize, uics: usize) -> bool {
    let bytes: Vec<u8> = (1..=uics as u16).flat_map(u16::to_le_bytes).collect();
    let mut image = vec![0; block * blocks];
    for (index, number) in [word, blocks, contents, uics].into_iter().enumerate() {
        set_word(&mut image, index, number as u16);
    }
    image[8..8 + bytes.len()].copy_from_slice(&bytes);
    if word == 2 {
        map::lay(&mut image, contents);
    }
    let formatted = requests::format(&mut vec![0; block * blocks], word, blocks, contents, &bytes).is_ok();
    assert_eq!(formatted, examine(&image).is_ok());
    formatted
}

/// Format takes each number at its bound and refuses it beyond, and so does the check.
#[test]
fn bounds_of_each_form() {
    let forms = [([1, 512], 1024, 8, 64), ([2, 512], 4096, 32, 64), ([3, 128], 1024, 32, 60)];
    for (form, most_blocks, most_contents, most_uics) in forms {
        assert!(formats(form, 16, 1, 0) && !formats(form, 15, 1, 0));
        assert!(formats(form, most_blocks, 1, 0) && !formats(form, most_blocks + 1, 1, 0));
        assert!(!formats(form, 16, 0, 0));
        assert!(formats(form, most_blocks, most_contents, 0) && !formats(form, most_blocks, most_contents + 1, 0));
        assert!(formats(form, 16, 1, most_uics) && !formats(form, 16, 1, most_uics + 1));
    }
    // The contents of form 1 are always fewer than the blocks.
    assert!(formats([1, 512], 16, 8, 0) && !formats([1, 512], 16, 9, 0));
    assert!(formats([2, 512], 16, 13, 0) && !formats([2, 512], 16, 14, 0));
    assert!(formats([2, 512], 35, 32, 0) && !formats([2, 512], 34, 32, 0));
    assert!(formats([3, 128], 16, 14, 0) && !formats([3, 128], 16, 15, 0));
    assert!(formats([3, 128], 34, 32, 0) && !formats([3, 128], 33, 32, 0));
    // The blocks of one form are no blocks of the other.
    assert!(!formats([1, 128], 16, 1, 0) && !formats([2, 128], 16, 1, 0) && !formats([3, 512], 16, 1, 0));
}

#[test]
fn numbers_that_name_no_form() {
    let unknown = (0..9).chain([257, 65537, usize::MAX]).filter(|&number| Form::of_word(number).is_none());
    for number in unknown {
        let mut image = smallest(Form::ONE);
        assert_eq!(requests::format(&mut image, number, 16, 1, &[]), Err(Refusal::Argument));
        assert_eq!(image, smallest(Form::ONE));
        if let Ok(word) = u16::try_from(number) {
            set_word(&mut image, 0, word);
            assert_eq!(requests::look(&image, OWNER, file("A", "")), Err(Refusal::Inconsistent));
        }
    }
}

#[test]
fn p13_rights() {
    for &form in ALL {
        let mut image = smallest(form);
        requests::alloc(&mut image, OWNER, file("FREQ", "DAT"), 3, 9).expect("there is room");
        let entry = Entry::read(form.entry(&image, 0));
        let stranger = rights(STRANGER, &entry);
        assert!(stranger.read && !stranger.write && !stranger.delete);
        let owner = rights(OWNER, &entry);
        assert!(owner.read && owner.write && owner.delete);
    }
}

#[test]
fn highest_run_of_rounded_length() {
    for &form in ALL {
        let mut image = smallest(form);
        let all = bodies(form) * form.segments;
        assert_eq!(requests::alloc(&mut image, OWNER, file("A", ""), 0, all + 1), Err(Refusal::NoRoom));
        assert_eq!(requests::alloc(&mut image, OWNER, file("A", ""), 0, all), Ok(16 - bodies(form)));
        assert_eq!(requests::alloc(&mut image, OWNER, file("B", ""), 0, usize::MAX), Err(Refusal::NoRoom));
    }
}

#[test]
fn new_file_is_all_zero() {
    for &form in ALL {
        let mut image = smallest(form);
        let start = |block: usize| block * form.block_bytes();
        image[start(16 - bodies(form))..].fill(0xA5);
        let before = image.clone();
        let all = bodies(form) * form.segments;
        assert_eq!(requests::alloc(&mut image, OWNER, file("A", ""), 0, all + 1), Err(Refusal::NoRoom));
        assert_eq!(image, before);
        assert_eq!(requests::alloc(&mut image, OWNER, file("A", ""), 0, form.segments), Ok(15));
        assert_eq!(requests::alloc(&mut image, OWNER, file("B", ""), 0, 2 * form.segments + 1), Ok(12));
        let kept = vec![0xA5; form.block_bytes()];
        assert_eq!(image[start(11)..start(12)], kept);
        assert!(image[start(12)..].iter().all(|&byte| byte == 0));
        image[start(15)..].copy_from_slice(&kept);
        assert_eq!(requests::delet(&mut image, OWNER, file("B", "")), Ok(()));
        assert_eq!(requests::alloc(&mut image, OWNER, file("C", ""), 0, 2 * form.segments), Ok(13));
        assert_eq!(image[start(15)..], kept);
    }
}

#[test]
fn append_to_itself() {
    for &form in ALL {
        let mut image = smallest(form);
        let bad = File { name1: 64000, ..file("A", "") };
        assert_eq!(requests::appnd(&mut image, OWNER, bad, bad), Err(Refusal::Name));
        let good = file("A", "");
        assert_eq!(requests::appnd(&mut image, OWNER, good, File { uic: OWNER, ..good }), Err(Refusal::Argument));
    }
}

#[test]
fn listing_of_the_example() {
    let mut image = smallest(Form::ONE);
    assert_eq!(requests::alloc(&mut image, OWNER, file("FREQ", "DAT"), 3, 9), Ok(13));
    assert_eq!(listing(&image), "BLOCKS 00016 FREE 00011\nFREQ  .DAT C 00003 [023,010] 003\n");
    assert_eq!(listing(&image[1..]), "REFUSED 40\n");
}

#[test]
fn comma_in_brackets_is_no_separator() {
    let line = "A[23,10],B";
    let first = specification(line, 0, 0);
    assert_eq!((first.present, first.group, first.user), (0b1010, 0o23, 0o10));
    assert_eq!(specification(line, 0, 1).name1, 2 * 1600);
    assert_eq!(specification(line, 0, 2).code, 0o51);
}

#[test]
fn device_needs_its_colon() {
    let answer = specification("DT1", 0, 0);
    assert_eq!((answer.present, answer.device, answer.name1), (0b0010, 0, 7231));
}

#[test]
fn empty_files_are_joined_without_a_link() {
    for &form in ALL {
        let mut image = smallest(form);
        let payload = vec![0o125; form.payload_bytes()];
        for name in ["A", "B", "C"] {
            requests::openo(&mut image, OWNER, file(name, ""), 0).expect("there is an entry");
            if name != "A" {
                requests::linked_add(&mut image, OWNER, file(name, ""), &payload).expect("there is room");
            }
            requests::close(&mut image, OWNER, file(name, ""), OUTPUT as usize).expect("it was opened so");
        }
        let header = form.block(&image, 0).to_vec();
        assert_eq!(requests::appnd(&mut image, OWNER, file("A", ""), file("B", "")), Ok(()));
        assert_eq!(requests::appnd(&mut image, OWNER, file("A", ""), file("C", "")), Ok(()));
        assert_eq!(form.block(&image, 0), header);
        let found = requests::look(&image, OWNER, file("A", "")).expect("it is there");
        assert_eq!((found.kind, found.first, found.length, found.last), (LINKED, 15, 2, 14));
        assert_eq!((form.link(&image, 15), form.link(&image, 14)), (14, 0));
        assert_eq!(requests::owner(&image, 14), Ok(Owner::Held { entry: 0, place: 1 }));
        assert_eq!(requests::owner(&image, 13), Ok(Owner::Free));
        assert_eq!(requests::owner(&image, 1), Ok(Owner::System));
        assert_eq!(requests::owner(&image, 16), Err(Refusal::NoBlock));
    }
}

#[test]
fn full_directory_comes_before_no_room() {
    for &form in ALL {
        let mut image = smallest(form);
        for index in 0..bodies(form) {
            let name = file(&format!("F{index}"), "");
            requests::alloc(&mut image, OWNER, name, 0, form.segments).expect("there is room");
        }
        assert_eq!(requests::alloc(&mut image, OWNER, file("G", ""), 0, 1), Err(Refusal::NoRoom));
        for index in bodies(form)..16 {
            requests::openo(&mut image, OWNER, file(&format!("G{index}"), ""), 0).expect("there is an entry");
        }
        assert_eq!(requests::alloc(&mut image, OWNER, file("H", ""), 0, 1), Err(Refusal::NoEntry));
    }
}

#[test]
fn transfers() {
    for &form in ALL {
        let mut image = smallest(form);
        let contiguous = file("A", "");
        requests::alloc(&mut image, OWNER, contiguous, 0, 2 * form.segments).expect("there is room");
        requests::openu(&mut image, OWNER, contiguous).expect("it is closed");
        let mut block = vec![7; form.block_bytes()];
        assert_eq!(requests::block_out(&mut image, OWNER, contiguous, 1, &block), Ok(()));
        assert_eq!(requests::block_out(&mut image, OWNER, contiguous, 2, &block), Err(Refusal::NoBlock));
        let devices = [1, 4].map(|segments| SEGMENT_BYTES * segments);
        for size in devices.into_iter().filter(|&size| size != form.block_bytes()) {
            let mut buffer = vec![7; size];
            assert_eq!(requests::block_out(&mut image, OWNER, contiguous, 0, &buffer), Err(Refusal::Argument));
            assert_eq!(requests::block_in(&image, OWNER, contiguous, 0, &mut buffer), Err(Refusal::Argument));
        }
        block.fill(0);
        assert_eq!(requests::block_in(&image, OWNER, contiguous, 1, &mut block), Ok(()));
        assert!(block.iter().all(|&byte| byte == 7));

        let linked = file("B", "");
        requests::openo(&mut image, OWNER, linked, 0).expect("there is an entry");
        let mut payload = vec![9; form.payload_bytes()];
        assert_eq!(requests::linked_add(&mut image, OWNER, linked, &payload), Ok(13));
        assert_eq!(requests::linked_add(&mut image, OWNER, linked, &payload), Ok(12));
        assert_eq!(requests::linked_read(&image, OWNER, linked, 0, &mut payload), Err(Refusal::NotOpen));
        requests::close(&mut image, OWNER, linked, OUTPUT as usize).expect("it was opened so");
        requests::openi(&mut image, OWNER, linked).expect("it is closed");
        payload.fill(0);
        assert_eq!(requests::linked_read(&image, OWNER, linked, 1, &mut payload), Ok(()));
        assert!(payload.iter().all(|&byte| byte == 9));
        assert_eq!(requests::linked_read(&image, OWNER, linked, 2, &mut payload), Err(Refusal::NoBlock));
        assert!(examine(&image).is_ok());
    }
}

#[test]
fn switches_of_a_specification() {
    let mut buffer = [0xff; 24];
    let answer: SpecificationAnswer = csi2(b"DK:/S:A1:B/LONG12", 0, 0, &mut buffer[..19]).into();
    assert_eq!(answer.code, 0o52);
    assert_eq!(buffer, [0xff; 24]);
    let answer: SpecificationAnswer = csi2(b"DK:/S:A1:B/LONG12", 0, 0, &mut buffer).into();
    assert_eq!((answer.code, answer.switches), (0, 2));
    let words: Vec<u16> = (0..10).map(|index| word(&buffer, index)).collect();
    let radix = |characters: &[u8]| radpk(characters).expect("they are of the set") as u16;
    assert_eq!(words[..7], [2, radix(b"S  "), 0, radix(b"A1 "), 0, radix(b"B  "), 0]);
    assert_eq!(words[7..], [0, radix(b"LON"), radix(b"G12")]);
    assert_eq!(buffer[20..], [0xff; 4]);
}

#[test]
fn lengths_of_lines() {
    let mut buffer = [b'?'; 130];
    assert_eq!(csi1(&[b' '; 512], &mut []), Ok(0));
    assert_eq!(csi1(&[b' '; 513], &mut buffer), Err(Refusal::LineLong.into()));
    assert_eq!(csi1(&[b','; 129], &mut buffer), Err(Refusal::LineLong.into()));
    assert_eq!(csi1(&[b','; 128], &mut buffer[..127]), Err(Refusal::BufferShort.into()));
    assert_eq!(buffer, [b'?'; 130]);
    assert_eq!(csi1(&[b','; 128], &mut buffer), Ok(128));
    assert_eq!(buffer[127..], *b",??");
    // "lengths of whole lines aside": all 128 characters begin a command that would be longer.
    assert_eq!(place(&format!("{}/", ",".repeat(127))), 128);
    assert_eq!(csi1(b"\tDT 1\0:\x7fA", &mut buffer), Ok(5));
    assert_eq!(buffer[..5], *b"DT1:A");
    // CSI2 takes a condensed line, so a blank is a character with which no command can go on.
    assert_eq!(specification("A B", 0, 0).place, 1);
}

/// The descent and the automaton are two writings of one grammar: every line over its kinds of characters, up to a
/// length, is in both or in neither.
#[test]
fn two_writings_of_the_grammar_agree() {
    let alphabet = b"A07:.[],</ ";
    for length in 0..=5 {
        for number in 0..alphabet.len().pow(length) {
            let line: Vec<u8> =
                (0..length).map(|place| alphabet[number / alphabet.len().pow(place) % alphabet.len()]).collect();
            let read = reading::read(&line, |_, _, _| ()).is_some();
            assert_eq!(read, grammar::command().accepts(&line), "{}", String::from_utf8_lossy(&line));
        }
    }
}

#[test]
fn consistency_at_its_edges() {
    for &form in ALL {
        let mut image = smallest(form);
        requests::alloc(&mut image, OWNER, file("A", ""), 0, bodies(form) * form.segments).expect("there is room");
        assert!(examine(&image).is_ok());
        let with = |index: usize, value: u16| {
            let mut changed = image.clone();
            set_word(form.entry_mut(&mut changed, 0), index, value);
            examine(&changed).is_ok()
        };
        assert!(with(entry::READERS, 62) && !with(entry::READERS, 63));
        assert!(with(entry::WRITER, 1) && !with(entry::WRITER, 2));
        assert!(with(entry::PROTECT, 255) && !with(entry::PROTECT, 256));
        assert!(!with(entry::FIRST, 1) && !with(entry::LENGTH, bodies(form) as u16 + 1) && !with(entry::LAST, 14));
        assert!(!with(5, LINKED) && with(5, CONTIGUOUS) && !with(11, 1));
        assert!(!with(entry::NAME2, 1600) && !with(entry::NAME1, 27 * 1600) && !with(entry::EXTENSION, 1));
    }
}
