//! Many requests in one call (02, §9): the layout, the order, and what the whole call is refused.

use super::{file, OWNER};
use crate::pack::form::{Form, ALL};
use crate::refusal::Refusal;
use crate::requests::many::{MOST_RECORDS, RECORD_BYTES};
use crate::requests::{self, many, File};
use crate::words::{set_word, word};

const ALLOC: u16 = 1;
const DELET: u16 = 2;
const KEEP: u16 = 5;
const OPENI: u16 = 7;
const CLOSE: u16 = 10;

/// A record of the owner's, with words 6 and 7.
fn record(request: u16, file: File, sixth: u16, seventh: u16) -> [u8; RECORD_BYTES] {
    let mut record = [0o377; RECORD_BYTES];
    let File { name1, name2, extension, .. } = file;
    let words = [request as usize, OWNER, name1, name2, extension, 0, sixth as usize, seventh as usize];
    for (index, number) in words.into_iter().enumerate() {
        set_word(&mut record, index, number as u16);
    }
    record
}

/// The codes and numbers of the answers.
fn said(answers: &[u8]) -> Vec<(u16, u16)> {
    answers.chunks_exact(RECORD_BYTES).map(|answer| (word(answer, 0), word(answer, 1))).collect()
}

fn pack(form: Form) -> Vec<u8> {
    super::pack(form, 16, &[OWNER])
}

#[test]
fn each_is_made_of_what_those_before_it_left() {
    for &form in ALL {
        let mut image = pack(form);
        let freq = file("FREQ", "DAT");
        let list = [
            record(ALLOC, freq, 3, form.segments as u16),
            record(ALLOC, freq, 3, 1),
            record(OPENI, freq, 0, 0),
            record(DELET, freq, 0, 0),
            record(CLOSE, freq, 4, 0),
            record(KEEP, freq, 0, 0),
            record(DELET, freq, 0, 0),
            record(DELET, freq, 0, 0),
        ]
        .concat();
        let empty = image.clone();
        let mut answers = vec![0o252; list.len() + 3];
        assert_eq!(many(&mut image, &list, &mut answers), Ok(()));
        let due = [(0, 15), (2, 0), (0, 0), (0o14, 0), (0, 0), (0, 0), (0, 0), (2, 0)];
        assert_eq!(said(&answers), due);
        assert!(answers.chunks_exact(RECORD_BYTES).all(|answer| answer[4..].iter().all(|&byte| byte == 0)));
        assert_eq!(answers[list.len()..], [0o252; 3]);
        // But for the block, which ALLOC cleared, the pack is as it was.
        let system = form.block_bytes() * 15;
        assert_eq!(image[..system], empty[..system]);
    }
}

#[test]
fn what_names_no_request_is_41_before_40() {
    let keep = record(KEEP, file("A", ""), 0, 0);
    for number in (0..=u16::MAX).filter(|number| !(1..=10).contains(number)) {
        let list = [record(number, file("A", ""), 0, 0), keep].concat();
        let mut answers = vec![0; list.len()];
        let mut image = vec![1, 2, 3];
        assert_eq!(many(&mut image, &list, &mut answers), Ok(()));
        assert_eq!(said(&answers), [(0o41, 0), (0o40, 0)]);
        assert_eq!(image, [1, 2, 3]);
    }
}

#[test]
fn the_whole_call_is_refused() {
    let mut image = pack(Form::ONE);
    requests::alloc(&mut image, OWNER, file("A", ""), 0, 1).expect("there is room");
    let kept = image.clone();
    let list = record(DELET, file("A", ""), 0, 0).repeat(MOST_RECORDS + 1);
    for (length, room) in [(65 * 32, 65 * 32), (33, 64), (31, 64), (32, 31), (32, 0), (64 * 32, 64 * 32 - 1)] {
        let mut answers = vec![0o252; room];
        assert_eq!(many(&mut image, &list[..length], &mut answers), Err(Refusal::Argument));
        assert!(image == kept && answers.iter().all(|&byte| byte == 0o252), "{length} {room}");
    }
    assert_eq!(many(&mut image, &[], &mut []), Ok(()));
    assert!(image == kept);
    let mut answers = vec![0; 64 * 32];
    assert_eq!(many(&mut image, &list[..64 * 32], &mut answers), Ok(()));
    assert_eq!(said(&answers)[0], (0, 0));
    assert!(said(&answers)[1..].iter().all(|&answer| answer == (2, 0)));
}
