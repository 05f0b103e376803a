//! Lines (02, §1) at their edges: statuses, ends of blocks and of the file, the gather buffer, room, and the codes.

use super::{bodies, file, pack, smallest, OWNER, STRANGER};
use crate::answers::{ReadAnswer, WriteAnswer};
use crate::pack::consistency::examine;
use crate::pack::entry::{Entry, EXTEND, INPUT, OUTPUT, PROTECT, READERS, WRITER};
use crate::pack::form::{Form, ALL, SEGMENT_BYTES};
use crate::refusal::Refusal;
use crate::requests::lines::{line_end, line_read, line_write, Read, Written};
use crate::requests::{self, File};
use crate::words::set_word;

pub(super) const NORMAL: usize = 0;
pub(super) const SPECIAL: usize = 1;
pub(super) const MODES: [usize; 2] = [NORMAL, SPECIAL];

/// What stands in a buffer before the call.
pub(super) const OLD: u8 = b'?';

pub(super) fn the_file() -> File {
    file("TEXT", "")
}

/// The smallest pack with a linked file that a writer has open.
pub(super) fn written(form: Form) -> Vec<u8> {
    let mut image = smallest(form);
    requests::openo(&mut image, OWNER, the_file(), 0).expect("there is an entry");
    image
}

/// The same with these bytes in the file, NULs behind them to the end of its last block, and a reader in place of the
/// writer.
pub(super) fn holding(form: Form, bytes: &[u8]) -> Vec<u8> {
    let mut image = written(form);
    for part in bytes.chunks(form.payload_bytes()) {
        let mut payload = vec![0; form.payload_bytes()];
        payload[..part.len()].copy_from_slice(part);
        requests::linked_add(&mut image, OWNER, the_file(), &payload).expect("there is room");
    }
    to_be_read(&mut image);
    image
}

pub(super) fn to_be_read(image: &mut [u8]) {
    requests::close(image, OWNER, the_file(), OUTPUT as usize).expect("it was opened so");
    requests::openi(image, OWNER, the_file()).expect("it is closed");
}

/// A read into a buffer of so many bytes, which is given back.
fn read(image: &[u8], mode: usize, position: usize, maximum: usize) -> (Vec<u8>, Result<Read, Refusal>) {
    let mut buffer = vec![OLD; maximum];
    let result = line_read(image, OWNER, the_file(), mode, position, &mut buffer);
    (buffer, result)
}

fn line(count: usize, status: usize, position: usize) -> Result<Read, Refusal> {
    Ok(Read { count, status, position })
}

/// A write of text with a gather buffer that is filled with its own places.
fn write(image: &mut [u8], mode: usize, text: &[u8], filled: usize) -> (Vec<u8>, Result<Written, Refusal>) {
    let mut gather = places(form_of(image));
    let result = line_write(image, OWNER, the_file(), mode, text, &mut gather, filled);
    (gather, result)
}

fn gathered(count: usize, status: usize, filled: usize) -> Result<Written, Refusal> {
    Ok(Written { count, status, filled })
}

pub(super) fn form_of(image: &[u8]) -> Form {
    Form::of_image(image).expect("it was formatted")
}

/// A payload of which each byte says its place, with bit 7 set, so that no text is taken for it.
pub(super) fn places(form: Form) -> Vec<u8> {
    (0..form.payload_bytes()).map(|place| 0o200 | (place % 127) as u8).collect()
}

/// The payloads of the file, joined.
pub(super) fn joined(image: &[u8]) -> Vec<u8> {
    let form = form_of(image);
    let found = requests::look(image, OWNER, the_file()).expect("it is there");
    let mut number = found.first as usize;
    let mut bytes = Vec::new();
    for _ in 0..found.length {
        bytes.extend_from_slice(form.payload(image, number));
        number = form.link(image, number);
    }
    bytes
}

/// Changes a word of the entry of the file, which is the first.
pub(super) fn with(image: &[u8], word: usize, value: u16) -> Vec<u8> {
    let mut changed = image.to_vec();
    set_word(form_of(image).entry_mut(&mut changed, 0), word, value);
    assert!(examine(&changed).is_ok());
    changed
}

#[test]
fn a_line_ends_after_each_terminator() {
    for &form in ALL {
        let image = holding(form, b"ONE\nTWO\x0bTHREE\x0c\nREST\r");
        for mode in MODES {
            assert_eq!(read(&image, mode, 0, 8), (b"ONE\n????".to_vec(), line(4, 0, 4)));
            assert_eq!(read(&image, mode, 4, 8), (b"TWO\x0b????".to_vec(), line(4, 0, 8)));
            assert_eq!(read(&image, mode, 8, 8), (b"THREE\x0c??".to_vec(), line(6, 0, 14)));
            assert_eq!(read(&image, mode, 14, 8), (b"\n???????".to_vec(), line(1, 0, 15)));
            // Carriage return is no terminator, and the NULs that fill the block are no characters.
            assert_eq!(read(&image, mode, 15, 8), (b"REST\r???".to_vec(), line(5, 64, form.payload_bytes())));
            assert_eq!(read(&image, mode, 5, 8), (b"WO\x0b?????".to_vec(), line(3, 0, 8)));
        }
    }
}

#[test]
fn bit_7_is_cleared_before_a_byte_is_looked_at() {
    for &form in ALL {
        let image = holding(form, b"\x00\x7fA\x80\xff\xc1\x00\x89\x8a\xff\x8b\x7f\x80\x8c");
        for mode in MODES {
            assert_eq!(read(&image, mode, 0, 5), (b"AA\t\n?".to_vec(), line(4, 0, 9)));
            assert_eq!(read(&image, mode, 9, 5), (b"\x0b????".to_vec(), line(1, 0, 11)));
            assert_eq!(read(&image, mode, 11, 1), (b"\x0c".to_vec(), line(1, 0, 14)));
        }
    }
}

#[test]
fn the_count_is_exact() {
    for &form in ALL {
        let image = holding(form, b"ABC\nDEF\n");
        for mode in MODES {
            assert_eq!(read(&image, mode, 0, 4), (b"ABC\n".to_vec(), line(4, 0, 4)));
        }
        // Only the terminator is surplus.
        assert_eq!(read(&image, NORMAL, 0, 3), (b"AB\n".to_vec(), line(4, 1, 4)));
        assert_eq!(read(&image, SPECIAL, 0, 3), (b"ABC".to_vec(), line(3, 1, 3)));
        assert_eq!(read(&image, SPECIAL, 3, 3), (b"\n??".to_vec(), line(1, 0, 4)));
        assert_eq!(read(&image, NORMAL, 0, 1), (b"\n".to_vec(), line(4, 1, 4)));
        assert_eq!(read(&image, SPECIAL, 0, 1), (b"A".to_vec(), line(1, 1, 1)));
    }
}

#[test]
fn surplus_is_laid_over_or_kept() {
    for &form in ALL {
        let image = holding(form, b"AB\x00C\x7f\x80D\xffE\x8aF");
        // Of the surplus too NUL and RUBOUT are discarded, and not counted.
        assert_eq!(read(&image, NORMAL, 0, 2), (b"A\n".to_vec(), line(6, 1, 10)));
        // The next position is just behind the last byte that was kept.
        assert_eq!(read(&image, SPECIAL, 0, 2), (b"AB".to_vec(), line(2, 1, 2)));
        assert_eq!(read(&image, SPECIAL, 2, 2), (b"CD".to_vec(), line(2, 1, 7)));
        assert_eq!(read(&image, SPECIAL, 7, 2), (b"E\n".to_vec(), line(2, 0, 10)));
    }
}

#[test]
fn the_file_ends_before_a_terminator() {
    for &form in ALL {
        let end = form.payload_bytes();
        let image = holding(form, &vec![b'A'; end]);
        for mode in MODES {
            assert_eq!(read(&image, mode, end - 3, 4), (b"AAA?".to_vec(), line(3, 64, end)));
            assert_eq!(read(&image, mode, end, 4), (b"????".to_vec(), line(0, 64, end)));
        }
        // As many characters as the maximum count, and nothing behind them: the count came first.
        assert_eq!(read(&image, NORMAL, end - 3, 3), (b"AAA".to_vec(), line(3, 65, end)));
        assert_eq!(read(&image, SPECIAL, end - 3, 3), (b"AAA".to_vec(), line(3, 1, end)));
        assert_eq!(read(&image, SPECIAL, end, 3), (b"???".to_vec(), line(0, 64, end)));
        // With surplus.
        assert_eq!(read(&image, NORMAL, end - 3, 2), (b"AA".to_vec(), line(3, 65, end)));
        assert_eq!(read(&image, SPECIAL, end - 3, 2), (b"AA".to_vec(), line(2, 1, end - 1)));
        // With NULs behind, which normal mode passes and special mode leaves.
        let image = holding(form, b"XYZ");
        assert_eq!(read(&image, NORMAL, 0, 3), (b"XYZ".to_vec(), line(3, 65, end)));
        assert_eq!(read(&image, SPECIAL, 0, 3), (b"XYZ".to_vec(), line(3, 1, 3)));
        assert_eq!(read(&image, SPECIAL, 3, 3), (b"???".to_vec(), line(0, 64, end)));
        // A terminator as the last byte of the file.
        let mut bytes = vec![b'A'; end];
        bytes[end - 1] = b'\n';
        let image = holding(form, &bytes);
        assert_eq!(read(&image, NORMAL, end - 2, 2), (b"A\n".to_vec(), line(2, 0, end)));
        assert_eq!(read(&image, NORMAL, end - 3, 2), (b"A\n".to_vec(), line(3, 1, end)));
    }
}

#[test]
fn positions() {
    for &form in ALL {
        let end = 2 * form.payload_bytes();
        let image = holding(form, &vec![b'X'; end]);
        for mode in MODES {
            assert_eq!(read(&image, mode, end, 1), (vec![OLD], line(0, 64, end)));
            for beyond in [end + 1, end + form.payload_bytes(), 1 << 16, 1 << 32, 1 << 63, usize::MAX - end, usize::MAX]
            {
                assert_eq!(read(&image, mode, beyond, 1), (vec![OLD], Err(Refusal::NoBlock)));
            }
        }
        let mut empty = written(form);
        to_be_read(&mut empty);
        assert_eq!(read(&empty, NORMAL, 0, 1), (vec![OLD], line(0, 64, 0)));
        assert_eq!(read(&empty, SPECIAL, 1, 1), (vec![OLD], Err(Refusal::NoBlock)));
    }
}

/// Lines that begin and end at places near the ends of three blocks.
#[test]
fn lines_across_the_ends_of_blocks() {
    for &form in ALL {
        let [one, two, three] = [1, 2, 3].map(|blocks| blocks * form.payload_bytes());
        let near =
            [0, one, two].map(|end| [end, end + 1, end + 2, end + one / 3, end + one - 2, end + one - 1]).concat();
        for &terminator in &near {
            let mut bytes: Vec<u8> = (0..three).map(|place| b'A' + (place % 26) as u8).collect();
            bytes[terminator] = b'\n';
            let image = holding(form, &bytes);
            for &position in near.iter().chain(&[three]) {
                let (last, status) = if position <= terminator { (terminator + 1, 0) } else { (three, 64) };
                reads(&image, position, &bytes[position..last], status);
            }
        }
    }
}

/// From a position on, a line of these bytes is read: whole, by parts, and with surplus.
fn reads(image: &[u8], position: usize, expected: &[u8], status: usize) {
    let last = position + expected.len();
    let (buffer, result) = read(image, NORMAL, position, 1600);
    assert_eq!(result, line(expected.len(), status, last));
    assert_eq!(&buffer[..expected.len()], expected);
    assert!(buffer[expected.len()..].iter().all(|&byte| byte == OLD));
    let mut at = position;
    let mut parts = Vec::new();
    while at < last {
        let (buffer, result) = read(image, SPECIAL, at, 7);
        let part = result.expect("the position is in the file");
        assert_eq!(part.position, at + part.count);
        parts.extend_from_slice(&buffer[..part.count]);
        at = part.position;
    }
    assert_eq!((at, &parts[..]), (last, expected));
    if expected.len() > 5 {
        let (buffer, result) = read(image, NORMAL, position, 5);
        assert_eq!(result, line(expected.len(), status | 1, last));
        assert_eq!((&buffer[..4], buffer[4]), (&expected[..4], expected[expected.len() - 1]));
    }
}

#[test]
fn characters_are_put_after_tab_and_form_feed() {
    for &form in ALL {
        let mut image = written(form);
        let before = image.clone();
        let (gather, result) = write(&mut image, NORMAL, b"A\tB\x0cC\x0bD\r\n", 0);
        assert_eq!(result, gathered(9, 0, 11));
        assert_eq!(gather[..11], *b"A\t\x7fB\x0c\x00C\x0bD\r\n");
        assert_eq!(gather[11..], places(form)[11..]);
        let (gather, result) = write(&mut image, SPECIAL, b"A\tB\x0cC\x0bD\r\n", 3);
        assert_eq!(result, gathered(4, 0, 9));
        assert_eq!(gather[3..9], *b"A\t\x7fB\x0c\x00");
        assert_eq!((&gather[..3], &gather[9..]), (&places(form)[..3], &places(form)[9..]));
        assert_eq!(image, before);
    }
}

#[test]
fn bit_0_of_a_write() {
    for &form in ALL {
        let mut image = written(form);
        for mode in MODES {
            // "or that it is 0".
            assert_eq!(write(&mut image, mode, b"", 7), (places(form), gathered(0, 1, 7)));
            for terminator in [b'\n', 0o13, 0o14] {
                let put_after = (terminator == 0o14) as usize;
                assert_eq!(write(&mut image, mode, &[b'A', terminator], 0).1, gathered(2, 0, 2 + put_after));
                assert_eq!(write(&mut image, mode, &[terminator], 0).1, gathered(1, 0, 1 + put_after));
            }
            assert_eq!(write(&mut image, mode, b"AB", 0).1, gathered(2, 1, 2));
            assert_eq!(write(&mut image, mode, b"A\t", 0).1, gathered(2, 1, 3));
            assert_eq!(write(&mut image, mode, b"A\r", 0).1, gathered(2, 1, 2));
        }
        assert_eq!(write(&mut image, NORMAL, b"A\nB", 0).1, gathered(3, 1, 3));
        assert_eq!(write(&mut image, SPECIAL, b"A\nB", 0).1, gathered(2, 0, 2));
        assert_eq!(write(&mut image, NORMAL, b"A\nB\n", 0).1, gathered(4, 0, 4));
        assert_eq!(write(&mut image, SPECIAL, b"\n\n\n", 0).1, gathered(1, 0, 1));
    }
}

#[test]
fn bytes_are_written_as_they_are_given() {
    for &form in ALL {
        let mut image = written(form);
        for mode in MODES {
            let (gather, result) = write(&mut image, mode, b"\x00\x7f\x89\x8a\x8b\x8c\xffA", 0);
            assert_eq!(result, gathered(8, 1, 8));
            assert_eq!(gather[..8], *b"\x00\x7f\x89\x8a\x8b\x8c\xffA");
        }
    }
}

#[test]
fn the_gather_buffer_at_its_edges() {
    for &form in ALL {
        let image = written(form);
        let mut changed = image.clone();
        let full = form.payload_bytes();
        let (gather, result) = write(&mut changed, NORMAL, b"A", full - 2);
        assert_eq!((result, gather[full - 2], changed == image), (gathered(1, 1, full - 1), b'A', true));

        let (gather, result) = write(&mut changed, NORMAL, b"\n", full - 1);
        assert_eq!(result, gathered(1, 0, 0));
        let mut expected = places(form);
        expected[full - 1] = b'\n';
        assert_eq!((&gather, &joined(&changed)), (&expected, &expected));

        // What is put after TAB begins the next block.
        let mut changed = image.clone();
        let (gather, result) = write(&mut changed, NORMAL, b"\t", full - 1);
        assert_eq!(result, gathered(1, 1, 1));
        expected[full - 1] = b'\t';
        assert_eq!(joined(&changed), expected);
        expected[0] = 0o177;
        assert_eq!(gather, expected);
    }
}

#[test]
fn filled_counts_and_gather_buffers_of_wrong_sizes() {
    for &form in ALL {
        let image = written(form);
        let full = form.payload_bytes();
        let mut changed = image.clone();
        for mode in [NORMAL, SPECIAL, 2] {
            for filled in [full, full + 1, 1 << 16, 1 << 32, usize::MAX] {
                assert_eq!(write(&mut changed, mode, b"A\n", filled), (places(form), Err(Refusal::Argument)));
                assert_eq!(
                    line_end(&mut changed, OWNER, the_file(), &mut places(form), filled),
                    Err(Refusal::Argument)
                );
            }
        }
        // "where a buffer has the other device's size" (02, §11), whose blocks are of 1 segment or of 4.
        let devices = [1, 4].map(|segments| SEGMENT_BYTES * segments - 2).into_iter().filter(|&size| size != full);
        for size in devices.chain([0, 1, full - 1, full + 1, full + 2, 2 * full]) {
            let mut gather = vec![OLD; size];
            let result = line_write(&mut changed, OWNER, the_file(), NORMAL, b"A\n", &mut gather, 0);
            assert_eq!(result, Err(Refusal::Argument));
            assert_eq!(line_end(&mut changed, OWNER, the_file(), &mut gather, 0), Err(Refusal::Argument));
            assert_eq!(gather, vec![OLD; size]);
        }
        assert_eq!(changed, image);
    }
}

#[test]
fn one_write_adds_several_blocks() {
    for &form in ALL {
        let mut image = written(form);
        let header = form.block(&image, 0).to_vec();
        let (one, two) = (form.payload_bytes(), 2 * form.payload_bytes());
        let text: Vec<u8> = (0..two + 20).map(|place| b'A' + (place % 23) as u8).collect();
        let (gather, result) = write(&mut image, SPECIAL, &text, 50);
        assert_eq!(result, gathered(two + 20, 1, 70));
        let bytes = [&places(form)[..50], &text[..]].concat();
        assert_eq!(joined(&image), bytes[..two]);
        // The bytes of the last full block stay above the new filled count.
        assert_eq!((&gather[..70], &gather[70..]), (&bytes[two..], &bytes[one + 70..two]));
        // The highest free blocks, the first of them without a link into block 0.
        let found = Entry::read(form.entry(&image, 0));
        assert_eq!((found.first, found.length, found.last), (15, 2, 14));
        assert_eq!((form.link(&image, 15), form.link(&image, 14)), (14, 0));
        assert_eq!(form.block(&image, 0), header);
        // The file is extended, and so by free blocks that do not follow one another.
        let other = file("OTHER", "");
        requests::alloc(&mut image, OWNER, other, 0, form.segments).expect("there is room");
        let mut image = with(&image, WRITER, EXTEND);
        let (_, result) = write(&mut image, NORMAL, &vec![b'Z'; one], 0);
        assert_eq!(result, gathered(one, 1, 0));
        assert_eq!((form.link(&image, 14), form.link(&image, 12)), (12, 0));
        assert!(examine(&image).is_ok());
    }
}

#[test]
fn a_write_without_room_is_refused_whole() {
    for &form in ALL {
        // All bodies are free.
        let one = form.payload_bytes();
        let room = bodies(form) * one;
        let image = written(form);
        for (length, filled) in [(room + one, 0), (room + one - 1, 1), (room + 1, one - 1), (room + 5000, 7)] {
            let mut changed = image.clone();
            for mode in MODES {
                let (gather, result) = write(&mut changed, mode, &vec![b'A'; length], filled);
                assert_eq!((gather, result), (places(form), Err(Refusal::NoRoom)));
            }
            assert_eq!(changed, image);
        }
        // What remains needs no block.
        for (length, filled) in [(room + one - 1, 0), (room + one - 2, 1), (room, one - 1), (room, 0), (room - 1, 1)] {
            let mut full = image.clone();
            let (_, result) = write(&mut full, NORMAL, &vec![b'A'; length], filled);
            assert_eq!(result, gathered(length, 1, filled + length - room));
            assert_eq!(joined(&full).len(), room);
            // No block is free any more.
            assert_eq!(write(&mut full, NORMAL, b"A\n", one - 3).1, gathered(2, 0, one - 1));
            assert_eq!(write(&mut full, NORMAL, b"A\n", one - 2), (places(form), Err(Refusal::NoRoom)));
            assert_eq!(write(&mut full, NORMAL, b"\t", one - 2), (places(form), Err(Refusal::NoRoom)));
            // Special mode needs room for what it takes, and for no more.
            assert_eq!(write(&mut full, SPECIAL, b"\nAAAA", one - 2).1, gathered(1, 0, one - 1));
            let mut gather = places(form);
            assert_eq!(line_end(&mut full, OWNER, the_file(), &mut gather, 1), Err(Refusal::NoRoom));
            assert_eq!(line_end(&mut full, OWNER, the_file(), &mut gather, 0), Ok(()));
            assert_eq!(gather, places(form));
        }
    }
}

#[test]
fn what_is_put_after_the_characters_needs_room() {
    for &form in ALL {
        let (one, room) = (form.payload_bytes(), bodies(form) * form.payload_bytes());
        let image = written(form);
        let tabs = vec![b'\t'; room / 2];
        let mut changed = image.clone();
        assert_eq!(
            write(&mut changed, NORMAL, &[&tabs[..], &vec![b'\t'; one / 2]].concat(), 0).1,
            Err(Refusal::NoRoom)
        );
        assert_eq!(changed, image);
        assert_eq!(write(&mut changed, NORMAL, &tabs, 0).1, gathered(room / 2, 1, 0));
    }
}

#[test]
fn the_ending_call() {
    for &form in ALL {
        let image = written(form);
        let mut changed = image.clone();
        let mut gather = places(form);
        assert_eq!(line_end(&mut changed, OWNER, the_file(), &mut gather, 0), Ok(()));
        assert_eq!((&gather, &changed), (&places(form), &image));
        for filled in [1, 2, form.payload_bytes() - 1] {
            let mut changed = image.clone();
            let mut gather = places(form);
            assert_eq!(line_end(&mut changed, OWNER, the_file(), &mut gather, filled), Ok(()));
            let mut expected = places(form);
            expected[filled..].fill(0);
            assert_eq!((&gather, &joined(&changed)), (&expected, &expected));
            assert!(examine(&changed).is_ok());
        }
        // Rights and opens are tested at 0 as well.
        let mut closed = with(&image, WRITER, 0);
        assert_eq!(line_end(&mut closed, OWNER, the_file(), &mut gather, 0), Err(Refusal::NotOpen));
        let mut denied = with(&image, PROTECT, 0o100);
        assert_eq!(line_end(&mut denied, OWNER, the_file(), &mut gather, 0), Err(Refusal::Right));
    }
}

/// The files of the tests of codes: one that is not there, one whose name is not legal, a contiguous one, and a linked one.
pub(super) fn absent() -> File {
    file("NONE", "")
}

pub(super) fn illegal() -> File {
    File { name1: 64000, ..absent() }
}

pub(super) fn contiguous() -> File {
    File { uic: OWNER, ..file("BLOCKS", "") }
}

pub(super) fn linked() -> File {
    File { uic: OWNER, ..the_file() }
}

/// A pack with a contiguous file that a stranger may not touch, and a linked one of a block that is closed; no block is free.
pub(super) fn closed(form: Form) -> Vec<u8> {
    let mut image = smallest(form);
    let segments = form.segments * (bodies(form) - 1);
    requests::alloc(&mut image, OWNER, contiguous(), 0o77, segments).expect("there is room");
    requests::openo(&mut image, OWNER, linked(), 0).expect("there is an entry");
    let payload = vec![b'X'; form.payload_bytes()];
    requests::linked_add(&mut image, OWNER, linked(), &payload).expect("there is room");
    requests::close(&mut image, OWNER, linked(), OUTPUT as usize).expect("it was opened so");
    image
}

/// The same with its linked file open.
pub(super) fn opened(form: Form, word: usize, value: u16) -> Vec<u8> {
    let mut image = closed(form);
    set_word(form.entry_mut(&mut image, 1), word, value);
    image
}

/// The same with a word 0 that is no form's.
pub(super) fn broken(form: Form) -> Vec<u8> {
    let mut image = closed(form);
    image[0] = 0;
    image
}

/// From all causes at once, one after another is taken away.
#[test]
fn order_of_the_codes_of_a_read() {
    for &form in ALL {
        let end = form.payload_bytes();
        let image = closed(form);
        let [output, extend] = [OUTPUT, EXTEND].map(|writer| opened(form, WRITER, writer));
        let reader = opened(form, READERS, 1);
        for (image, caller, file, mode, maximum, code) in [
            (&broken(form), STRANGER, illegal(), 2, 0, 0o40),
            (&image, STRANGER, illegal(), 2, 0, 0o15),
            (&image, STRANGER, absent(), 2, 9, 0o41),
            (&image, STRANGER, absent(), 0, 0, 0o41),
            (&image, STRANGER, absent(), 0, 9, 0o2),
            (&image, STRANGER, contiguous(), 1, 9, 0o6),
            (&image, OWNER, contiguous(), 1, 9, 0o43),
            (&image, OWNER, linked(), 0, 9, 0o45),
            (&output, OWNER, linked(), 0, 9, 0o45),
            (&extend, OWNER, linked(), 0, 9, 0o45),
            (&reader, OWNER, linked(), 0, 9, 0o44),
        ] {
            let mut buffer = vec![OLD; maximum];
            let answer = ReadAnswer::from(line_read(image, caller, file, mode, end + 1, &mut buffer));
            assert_eq!(answer, ReadAnswer { code, ..ReadAnswer::default() });
            assert_eq!(buffer, vec![OLD; maximum]);
        }
        let answer = ReadAnswer::from(line_read(&reader, STRANGER, linked(), 0, end - 3, &mut [OLD; 9]));
        assert_eq!(answer, ReadAnswer { code: 0, count: 3, status: 64, position: end });
    }
}

/// The same of a write, and of the ending call.
#[test]
fn order_of_the_codes_of_a_write() {
    for &form in ALL {
        let full = form.payload_bytes();
        let image = closed(form);
        let [mut output, extend] = [OUTPUT, EXTEND].map(|writer| opened(form, WRITER, writer));
        for (image, caller, file, mode, size, filled, code) in [
            (&broken(form), STRANGER, illegal(), 2, 0, full, 0o40),
            (&image, STRANGER, illegal(), 2, 0, full, 0o15),
            (&image, STRANGER, absent(), 2, full, full - 1, 0o41),
            (&image, STRANGER, absent(), 0, full - 1, full - 1, 0o41),
            (&image, STRANGER, absent(), 0, full, full, 0o41),
            (&image, STRANGER, absent(), 0, full, full - 1, 0o2),
            (&image, STRANGER, contiguous(), 1, full, full - 1, 0o6),
            (&image, OWNER, contiguous(), 1, full, full - 1, 0o43),
            (&image, OWNER, linked(), 0, full, full - 1, 0o45),
            (&opened(form, READERS, 1), OWNER, linked(), 0, full, full - 1, 0o45),
            (&output, OWNER, linked(), 0, full, full - 1, 0o42),
            (&extend, STRANGER, linked(), 1, full, full - 1, 0o42),
        ] {
            let mut changed = image.clone();
            let mut gather = vec![OLD; size];
            let result = line_write(&mut changed, caller, file, mode, b"A\n", &mut gather, filled);
            assert_eq!(WriteAnswer::from(result), WriteAnswer { code, ..WriteAnswer::default() });
            // The ending call has no mode, and else the same list.
            if mode != 2 {
                let result = line_end(&mut changed, caller, file, &mut gather, filled);
                assert_eq!(crate::answers::code(result), code);
            }
            assert_eq!((&changed, gather), (image, vec![OLD; size]));
        }
        let result = line_write(&mut output, STRANGER, linked(), 0, b"A\n", &mut vec![OLD; full], full - 3);
        assert_eq!(WriteAnswer::from(result), WriteAnswer { code: 0, count: 2, status: 0, filled: full - 1 });
    }
}

/// "Lines of 7-bit characters without NUL or RUBOUT, each with its one terminator at its end, must read back the same
/// when the count allows them."
#[test]
fn lines_read_back_the_same() {
    for &form in ALL {
        let lines = lines_of_all_lengths(form);
        for image in MODES.map(|mode| with_lines(form, mode, &lines.concat())) {
            for mode in MODES {
                let mut position = 0;
                for expected in &lines {
                    let (buffer, result) = read(&image, mode, position, 600);
                    let found = result.expect("the position is in the file");
                    assert_eq!((&buffer[..found.count], found.status), (&expected[..], 0));
                    // The count allows them, but no more.
                    assert_eq!(read(&image, mode, position, expected.len()), (expected.clone(), Ok(found)));
                    position = found.position;
                }
                assert_eq!(read(&image, mode, position, 1), (vec![OLD], line(0, 64, joined(&image).len())));
            }
        }
    }
}

fn lines_of_all_lengths(form: Form) -> Vec<Vec<u8>> {
    let one = form.payload_bytes();
    let line = |number: usize| {
        let length = [0, 1, 2, 40, 59, 131, 300, one - 1, one, one + 1][number * 7 % 10];
        let others = (1..0o177).filter(|character| !(0o12..=0o14).contains(character));
        let mut line: Vec<u8> = others.cycle().skip(number * 31).take(length).collect();
        line.push([b'\n', 0o13, 0o14][number % 3]);
        line
    };
    (0..60).map(line).collect()
}

/// A pack whose file has these lines, written in a mode, and is open to be read.
fn with_lines(form: Form, mode: usize, lines: &[u8]) -> Vec<u8> {
    let mut image = pack(form, 64, &[OWNER]);
    requests::openo(&mut image, OWNER, the_file(), 0).expect("there is an entry");
    let mut gather = places(form);
    let mut filled = 0;
    let mut left = lines;
    while !left.is_empty() {
        // Normal mode is given pieces that break the lines anywhere, special mode all that is left.
        let given = if mode == NORMAL { &left[..left.len().min(777)] } else { left };
        let part = line_write(&mut image, OWNER, the_file(), mode, given, &mut gather, filled).expect("there is room");
        left = &left[part.count..];
        filled = part.filled;
    }
    line_end(&mut image, OWNER, the_file(), &mut gather, filled).expect("there is room");
    to_be_read(&mut image);
    assert!(examine(&image).is_ok());
    image
}

/// A read needs a reader, of whomever, and a write its writer; neither serves for the other.
#[test]
fn opens_that_serve() {
    for &form in ALL {
        let image = with(&written(form), READERS, 3);
        assert_eq!(read(&image, NORMAL, 0, 1).1, line(0, 64, 0));
        let mut both = image.clone();
        let one = form.payload_bytes();
        assert_eq!(write(&mut both, NORMAL, &vec![b'A'; one + 1], 0).1, gathered(one + 1, 1, 1));
        assert_eq!(read(&both, NORMAL, one - 1, 2), (b"A?".to_vec(), line(1, 64, one)));
        let mut reader_alone = both.clone();
        requests::close(&mut reader_alone, OWNER, the_file(), OUTPUT as usize).expect("it was opened so");
        assert_eq!(write(&mut reader_alone, NORMAL, b"", 0).1, Err(Refusal::NotOpen));
        for _ in 0..3 {
            requests::close(&mut both, OWNER, the_file(), INPUT as usize).expect("it was opened so");
        }
        assert_eq!(read(&both, NORMAL, 0, 1).1, Err(Refusal::NotOpen));
    }
}
