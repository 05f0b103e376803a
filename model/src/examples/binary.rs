//! Binary lines (02, §10) at their edges: headers, sums, parts, ends of blocks and of the file, room, and the codes.

use super::lines::{
    absent, broken, closed, contiguous, form_of, holding, illegal, joined, linked, opened, places, the_file,
    to_be_read, with, written, MODES, NORMAL, OLD, SPECIAL,
};
use super::{bodies, pack, OWNER, STRANGER};
use crate::answers::{BinaryAnswer, WriteAnswer};
use crate::pack::consistency::examine;
use crate::pack::entry::{EXTEND, OUTPUT, READERS, WRITER};
use crate::pack::form::{Form, ALL};
use crate::refusal::Refusal;
use crate::requests;
use crate::requests::binary::{binary_read, binary_write, BinaryRead};
use crate::requests::lines::{line_end, Written};

/// "ABC" and the empty line, as they are stored.
const ABC: [u8; 8] = [1, 0, 7, 0, b'A', b'B', b'C', 50];
const EMPTY: [u8; 5] = [1, 0, 4, 0, 251];

/// A read of a new line into a buffer of so many bytes, which is given back.
fn read(image: &[u8], mode: usize, position: usize, maximum: usize) -> (Vec<u8>, Result<BinaryRead, Refusal>) {
    read_on(image, mode, (position, 0, 0), maximum)
}

/// The same from a position, with what is to come and the sum so far.
fn read_on(
    image: &[u8],
    mode: usize,
    (position, to_come, sum): (usize, usize, usize),
    maximum: usize,
) -> (Vec<u8>, Result<BinaryRead, Refusal>) {
    let mut buffer = vec![OLD; maximum];
    let result = binary_read(image, OWNER, the_file(), mode, position, to_come, sum, &mut buffer);
    (buffer, result)
}

/// What a read gives that does not stop in a line.
fn line(count: usize, status: usize, position: usize) -> Result<BinaryRead, Refusal> {
    part(count, status, (position, 0, 0))
}

fn part(count: usize, status: usize, (position, to_come, sum): (usize, usize, usize)) -> Result<BinaryRead, Refusal> {
    Ok(BinaryRead { count, status, position, to_come, sum })
}

fn write(image: &mut [u8], data: &[u8], filled: usize) -> (Vec<u8>, Result<Written, Refusal>) {
    let mut gather = places(form_of(image));
    let result = binary_write(image, OWNER, the_file(), data, &mut gather, filled);
    (gather, result)
}

fn gathered(count: usize, filled: usize) -> Result<Written, Refusal> {
    Ok(Written { count, status: 0, filled })
}

#[test]
fn nuls_before_a_line_are_skipped() {
    for &form in ALL {
        let image = holding(form, &[&[0, 0][..], &ABC, &EMPTY, &[0], &ABC].concat());
        for mode in MODES {
            assert_eq!(read(&image, mode, 0, 4), (b"ABC?".to_vec(), line(3, 0, 10)));
            assert_eq!(read(&image, mode, 1, 3), (b"ABC".to_vec(), line(3, 0, 10)));
            // The buffer is not touched.
            assert_eq!(read(&image, mode, 10, 4), (b"????".to_vec(), line(0, 0, 15)));
            assert_eq!(read(&image, mode, 15, 4), (b"ABC?".to_vec(), line(3, 0, 24)));
            // NULs to the end of the file are no line.
            assert_eq!(read(&image, mode, 24, 4), (b"????".to_vec(), line(0, 64, form.payload_bytes())));
        }
    }
}

#[test]
fn a_wrong_header_leaves_the_position() {
    for &form in ALL {
        for header in
            [[2, 0, 7, 0], [1, 1, 7, 0], [255, 0, 7, 0], [1, 0, 3, 0], [1, 0, 0, 0], [1, 0, 5, 2], [1, 0, 4, 3]]
        {
            let image = holding(form, &[&[0, 0, 0][..], &header, b"ABC"].concat());
            for mode in MODES {
                assert_eq!(read(&image, mode, 1, 4), (b"????".to_vec(), line(0, 4, 1)));
                assert_eq!(read(&image, mode, 3, 4), (b"????".to_vec(), line(0, 4, 3)));
            }
        }
    }
}

/// The file ends behind so many bytes of a line: a word that is cut is not judged, and one that is whole is.
#[test]
fn a_header_that_the_file_ends() {
    for &form in ALL {
        let end = form.payload_bytes();
        for (bytes, status) in [
            (&[1][..], 64),
            (&[2], 64),
            (&[1, 0], 64),
            (&[1, 1], 4),
            (&[2, 0], 4),
            (&[1, 0, 3], 64),
            (&[1, 0, 3, 0], 4),
            (&[1, 0, 5, 2], 4),
            (&[1, 0, 4, 0], 64),
            (&[1, 0, 4, 2], 64),
        ] {
            let image = holding(form, &[&vec![0; end - bytes.len()], bytes].concat());
            for mode in MODES {
                let position = if status == 4 { end - 9 } else { end };
                assert_eq!(read(&image, mode, end - 9, 2), (b"??".to_vec(), line(0, status, position)));
            }
        }
    }
}

#[test]
fn data_that_the_file_ends() {
    for &form in ALL {
        let end = form.payload_bytes();
        for there in 1..=3 {
            let image = holding(form, &[&vec![0; end - 4 - there], &ABC[..4 + there]].concat());
            for maximum in 1..=4 {
                let laid = |count: usize| [&b"ABC"[..count], &[OLD; 4]].concat()[..maximum].to_vec();
                let mut expected = laid(there.min(maximum));
                expected[there.min(maximum) - 1] = b"ABC"[there - 1];
                // As many as there are is not as many as the line has, but for a missing sum byte.
                let short = maximum <= there && maximum < 3;
                let status = if short { 65 } else { 64 };
                assert_eq!(read(&image, NORMAL, 0, maximum), (expected, line(there, status, end)));
                let special = read(&image, SPECIAL, 0, maximum);
                if short {
                    let sum = 1 + 7 + ABC[4..4 + maximum].iter().map(|&byte| byte as usize).sum::<usize>();
                    let position = end - there + maximum;
                    let stopped = (position, 3 - maximum, sum % 256);
                    assert_eq!(special, (laid(maximum), part(maximum, 1, stopped)));
                } else {
                    assert_eq!(special, (laid(there), line(there, 64, end)));
                }
            }
        }
    }
}

#[test]
fn surplus_is_laid_over_or_kept() {
    for &form in ALL {
        let image = holding(form, &[&ABC[..], &[1, 0, 7, 0, b'A', b'B', b'C', 51]].concat());
        assert_eq!(read(&image, NORMAL, 0, 2), (b"AC".to_vec(), line(3, 1, 8)));
        assert_eq!(read(&image, NORMAL, 0, 1), (b"C".to_vec(), line(3, 1, 8)));
        assert_eq!(read(&image, NORMAL, 8, 2), (b"AC".to_vec(), line(3, 3, 16)));
        assert_eq!(read(&image, NORMAL, 8, 3), (b"ABC".to_vec(), line(3, 2, 16)));
        for (start, wrong) in [(0, 0), (8, 2)] {
            assert_eq!(read(&image, SPECIAL, start, 1), (b"A".to_vec(), part(1, 1, (start + 5, 2, 73))));
            let second = read_on(&image, SPECIAL, (start + 5, 2, 73), 1);
            assert_eq!(second, (b"B".to_vec(), part(1, 1, (start + 6, 1, 139))));
            for mode in MODES {
                let third = read_on(&image, mode, (start + 6, 1, 139), 1);
                assert_eq!(third, (b"C".to_vec(), line(1, wrong, start + 8)));
            }
            // A normal read of the rest lays over and verifies.
            assert_eq!(read_on(&image, NORMAL, (start + 5, 2, 73), 1), (b"C".to_vec(), line(2, wrong | 1, start + 8)));
        }
    }
}

/// What is passed in again, at its bounds; no NUL is skipped in a line.
#[test]
fn to_come_and_sum() {
    for &form in ALL {
        let end = form.payload_bytes();
        let image = holding(form, &ABC);
        for mode in MODES {
            for (to_come, sum) in [(512, 0), (1, 256), (0, 1), (0, 255), (usize::MAX, 0), (1 << 32, 1), (1, 65536)] {
                assert_eq!(read_on(&image, mode, (0, to_come, sum), 4), (vec![OLD; 4], Err(Refusal::Argument)));
            }
            assert_eq!(read_on(&image, mode, (end, 511, 255), 4), (vec![OLD; 4], line(0, 64, end)));
            assert_eq!(read_on(&image, mode, (8, 2, 0), 4), (b"\0\0??".to_vec(), line(2, 0, 11)));
            assert_eq!(read_on(&image, mode, (8, 2, 1), 4), (b"\0\0??".to_vec(), line(2, 2, 11)));
            assert_eq!(read(&image, mode, end, 4), (vec![OLD; 4], line(0, 64, end)));
            assert_eq!(read(&image, mode, end + 1, 4), (vec![OLD; 4], Err(Refusal::NoBlock)));
            assert_eq!(read(&image, mode, 0, 0), (vec![], Err(Refusal::Argument)));
        }
    }
}

#[test]
fn a_line_as_it_is_stored() {
    for &form in ALL {
        let mut image = written(form);
        let before = image.clone();
        let (gather, result) = write(&mut image, b"ABC", 3);
        assert_eq!(result, gathered(3, 11));
        assert_eq!((&gather[..3], &gather[3..11], &gather[11..]), (&places(form)[..3], &ABC[..], &places(form)[11..]));
        let (gather, result) = write(&mut image, b"", 0);
        assert_eq!((&gather[..5], result), (&EMPTY[..], gathered(0, 5)));
        assert_eq!(image, before);
        // Nothing is put after TAB and FORM FEED, and no bit is cleared.
        let (gather, _) = write(&mut image, b"\t\x0c\xff", 0);
        assert_eq!(gather[..8], [1, 0, 7, 0, 9, 12, 255, 228]);
        assert_eq!(write(&mut image, &[0; 513], 0), (places(form), Err(Refusal::Argument)));
        // The count word has its low byte first.
        let (_, result) = write(&mut image, &[0; 512], 0);
        let full = 517 / form.payload_bytes() * form.payload_bytes();
        assert_eq!(result, gathered(512, 517 - full));
        assert_eq!(joined(&image)[..5], [1, 0, 4, 2, 0]);
        assert_eq!(joined(&image).len(), full);
        assert!(examine(&image).is_ok());
    }
}

#[test]
fn a_write_without_room_is_refused_whole() {
    for &form in ALL {
        let mut image = written(form);
        let one = form.payload_bytes();
        let full = vec![b'A'; one];
        for _ in 1..bodies(form) {
            requests::linked_add(&mut image, OWNER, the_file(), &full).expect("there is room");
        }
        let before = image.clone();
        for (data, filled) in [(2 * one - 5, 0), (2 * one - 6, 1), (one - 4, one - 1)] {
            if data <= 512 {
                assert_eq!(write(&mut image, &vec![7; data], filled), (places(form), Err(Refusal::NoRoom)));
            }
        }
        assert_eq!(image, before);
        assert_eq!(write(&mut image, &vec![7; one - 5], one - 1).1, gathered(one - 5, one - 1));
        // No block is free any more, and none is needed.
        assert_eq!(write(&mut image, b"", one - 6).1, gathered(0, one - 1));
        assert_eq!(write(&mut image, b"", one - 5), (places(form), Err(Refusal::NoRoom)));
    }
}

/// From all causes at once, one after another is taken away.
#[test]
fn order_of_the_codes_of_a_read() {
    for &form in ALL {
        let end = form.payload_bytes();
        let image = closed(form);
        let [output, extend] = [OUTPUT, EXTEND].map(|writer| opened(form, WRITER, writer));
        let reader = opened(form, READERS, 1);
        for (image, caller, file, mode, (to_come, sum), maximum, code) in [
            (&broken(form), STRANGER, illegal(), 2, (512, 256), 0, 0o40),
            (&image, STRANGER, illegal(), 2, (512, 256), 0, 0o15),
            (&image, STRANGER, absent(), 2, (0, 0), 9, 0o41),
            (&image, STRANGER, absent(), 0, (0, 0), 0, 0o41),
            (&image, STRANGER, absent(), 0, (512, 0), 9, 0o41),
            (&image, STRANGER, absent(), 0, (511, 256), 9, 0o41),
            (&image, STRANGER, absent(), 0, (0, 1), 9, 0o41),
            (&image, STRANGER, absent(), 0, (511, 255), 9, 0o2),
            (&image, STRANGER, contiguous(), 1, (0, 0), 9, 0o6),
            (&image, OWNER, contiguous(), 1, (0, 0), 9, 0o43),
            (&image, OWNER, linked(), 0, (0, 0), 9, 0o45),
            (&output, OWNER, linked(), 0, (0, 0), 9, 0o45),
            (&extend, OWNER, linked(), 0, (0, 0), 9, 0o45),
            (&reader, OWNER, linked(), 0, (511, 255), 9, 0o44),
        ] {
            let mut buffer = vec![OLD; maximum];
            let result = binary_read(image, caller, file, mode, end + 1, to_come, sum, &mut buffer);
            assert_eq!(BinaryAnswer::from(result), BinaryAnswer { code, ..BinaryAnswer::default() });
            assert_eq!(buffer, vec![OLD; maximum]);
        }
        let result = binary_read(&reader, STRANGER, linked(), 0, end - 3, 0, 0, &mut [OLD; 9]);
        let answer = BinaryAnswer { code: 0, count: 0, status: 4, position: end - 3, to_come: 0, sum: 0 };
        assert_eq!(BinaryAnswer::from(result), answer);
    }
}

/// The same of a write.
#[test]
fn order_of_the_codes_of_a_write() {
    for &form in ALL {
        let full = form.payload_bytes();
        let image = closed(form);
        let [output, extend] = [OUTPUT, EXTEND].map(|writer| opened(form, WRITER, writer));
        for (image, caller, file, data, size, filled, code) in [
            (&broken(form), STRANGER, illegal(), 513, 0, full, 0o40),
            (&image, STRANGER, illegal(), 513, 0, full, 0o15),
            (&image, STRANGER, absent(), 513, full, full - 1, 0o41),
            (&image, STRANGER, absent(), 512, full - 1, full - 1, 0o41),
            (&image, STRANGER, absent(), 512, full, full, 0o41),
            (&image, STRANGER, absent(), 512, full, full - 1, 0o2),
            (&image, STRANGER, contiguous(), 512, full, full - 1, 0o6),
            (&image, OWNER, contiguous(), 512, full, full - 1, 0o43),
            (&image, OWNER, linked(), 512, full, full - 1, 0o45),
            (&opened(form, READERS, 1), OWNER, linked(), 0, full, full - 1, 0o45),
            (&output, OWNER, linked(), 0, full, full - 1, 0o42),
            (&extend, STRANGER, linked(), 512, full, full - 1, 0o42),
        ] {
            let mut changed = image.clone();
            let mut gather = vec![OLD; size];
            let result = binary_write(&mut changed, caller, file, &vec![1; data], &mut gather, filled);
            assert_eq!(WriteAnswer::from(result), WriteAnswer { code, ..WriteAnswer::default() });
            assert_eq!((&changed, gather), (image, vec![OLD; size]));
        }
    }
}

/// Data of many lengths and of all bytes.
fn data_of_all_lengths() -> Vec<Vec<u8>> {
    let data = |number: usize| {
        let length = [0, 1, 2, 121, 122, 251, 252, 505, 506, 512][number * 7 % 10];
        (0..=255).cycle().skip(number * 31).take(length).collect()
    };
    (0..40).map(data).collect()
}

/// A pack whose file has these lines, some of them in blocks that were ended, and is open to be read.
fn with_lines(form: Form, lines: &[Vec<u8>]) -> Vec<u8> {
    let mut image = pack(form, 128, &[OWNER]);
    requests::openo(&mut image, OWNER, the_file(), 0).expect("there is an entry");
    let mut gather = places(form);
    let mut filled = 0;
    for (number, data) in lines.iter().enumerate() {
        let written = binary_write(&mut image, OWNER, the_file(), data, &mut gather, filled).expect("there is room");
        filled = written.filled;
        if number % 9 == 8 {
            line_end(&mut image, OWNER, the_file(), &mut gather, filled).expect("there is room");
            filled = 0;
        }
    }
    line_end(&mut image, OWNER, the_file(), &mut gather, filled).expect("there is room");
    to_be_read(&mut image);
    assert!(examine(&image).is_ok());
    image
}

/// "What is written reads back", at once and in parts.
#[test]
fn lines_read_back_the_same() {
    for &form in ALL {
        let lines = data_of_all_lengths();
        let image = with_lines(form, &lines);
        for (mode, maximum) in [(NORMAL, 512), (SPECIAL, 512), (SPECIAL, 100), (SPECIAL, 7), (SPECIAL, 1)] {
            let mut at = (0, 0, 0);
            for expected in &lines {
                let mut found: Vec<u8> = Vec::new();
                loop {
                    let (buffer, result) = read_on(&image, mode, at, maximum);
                    let part = result.expect("the position is in the file");
                    found.extend(&buffer[..part.count]);
                    at = (part.position, part.to_come, part.sum);
                    assert_eq!(part.status, if part.to_come == 0 { 0 } else { 1 });
                    if part.to_come == 0 {
                        break;
                    }
                }
                assert_eq!(&found, expected);
            }
            assert_eq!(read_on(&image, mode, at, 1), (vec![OLD], line(0, 64, joined(&image).len())));
        }
    }
}

/// "where the buffer holds the line a change to any one data byte sets bit 1."
#[test]
fn a_changed_byte() {
    for &form in ALL {
        for place in 4..7 {
            for change in 1..=255 {
                let mut bytes = ABC;
                bytes[place] = bytes[place].wrapping_add(change);
                let image = holding(form, &bytes);
                for mode in MODES {
                    assert_eq!(read(&image, mode, 0, 3), (bytes[4..7].to_vec(), line(3, 2, 8)));
                }
            }
        }
    }
}

/// A read needs a reader, and a write its writer; neither serves for the other.
#[test]
fn opens_that_serve() {
    for &form in ALL {
        let mut image = written(form);
        assert_eq!(read(&image, NORMAL, 0, 1).1, Err(Refusal::NotOpen));
        assert_eq!(write(&mut image, b"", 0).1, gathered(0, 5));
        let mut reader = with(&with(&image, WRITER, 0), READERS, 1);
        assert_eq!(read(&reader, NORMAL, 0, 1).1, line(0, 64, 0));
        assert_eq!(write(&mut reader, b"", 0).1, Err(Refusal::NotOpen));
    }
}
