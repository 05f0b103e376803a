//! Writing command lines (02, §4): worked examples, the record that no line can have, and the edges.

use super::file;
use crate::answers::SpecificationAnswer;
use crate::command::{csi1, csi2, csi_write};
use crate::conversions::radpk;
use crate::refusal::Refusal;

/// A side's specifications as CSI2 tells them, one behind the other, and how many there are.
fn side(line: &[u8], side: usize, records: &mut Vec<u8>) -> usize {
    let mut switches = [0; 384];
    for k in 0.. {
        let read = csi2(line, side, k, &mut switches);
        let bytes = read.as_ref().map_or(0, |read| read.switches.bytes());
        let it: SpecificationAnswer = read.into();
        if it.code != 0 {
            return k;
        }
        let numbers =
            [it.present, it.device, it.unit, it.name1, it.name2, it.extension, it.group, it.user, it.switches];
        records.extend(numbers.iter().flat_map(|&number| (number as u16).to_le_bytes()));
        records.extend(&switches[..bytes]);
    }
    unreachable!("a line is not without end")
}

fn records(line: &[u8]) -> (usize, usize, Vec<u8>) {
    let mut records = Vec::new();
    let outputs = side(line, 0, &mut records);
    let inputs = side(line, 1, &mut records);
    (outputs, inputs, records)
}

fn written(raw: &str) -> String {
    let mut line = [0; 128];
    let length = csi1(raw.as_bytes(), &mut line).expect("it is a command");
    let (outputs, inputs, records) = records(&line[..length]);
    let mut buffer = [b'?'; 129];
    let length = csi_write(outputs, inputs, &records, &mut buffer).expect("it was read");
    assert_eq!(buffer[length], b'?');
    String::from_utf8(buffer[..length].to_vec()).expect("characters of a command")
}

#[test]
fn lines_shown_back() {
    for (typed, shown) in [
        ("", ""),
        ("<", "<"),
        (",,<,", ",,<,"),
        (" DT 1 : FREQ . DAT [ 23 , 10 ] / S : A1 : B2 ", "DT1:FREQ.DAT[23,10]/S:A1:B2"),
        ("DT0:", "DT:"),
        ("DT00000:A", "DT:A"),
        ("DTA007:", "DTA7:"),
        ("[007,0377]", "[7,377]"),
        ("[00,0010]", "[0,10]"),
        ("A.B,/SW/SW:1,<KB:,[1,2]", "A.B,/SW/SW:1,<KB:,[1,2]"),
        ("ABCDEF.XYZ/ABCDE1:Z:9:ABCDEF", "ABCDEF.XYZ/ABCDE1:Z:9:ABCDEF"),
    ] {
        assert_eq!(written(typed), shown, "{typed}");
    }
}

/// The records of a line with every part in it, one on each side.
fn good() -> Vec<u8> {
    let (outputs, inputs, good) = records(b"DT1:FREQ.DAT[23,10]/SW:A1<KB:");
    assert_eq!((outputs, inputs, good.len()), (1, 1, 46));
    good
}

fn refused(outputs: usize, inputs: usize, records: &[u8]) {
    let mut buffer = [b'?'; 128];
    assert_eq!(csi_write(outputs, inputs, records, &mut buffer), Err(Refusal::Argument));
    assert_eq!(buffer, [b'?'; 128]);
}

#[test]
fn words_that_no_line_says() {
    let changes = [
        (0, 16 + 15),                 // a bit that does not exist
        (0, 15 - 1),                  // a device word and a unit without a device
        (0, 15 - 2),                  // an extension without a name
        (1, radpk(b"D  ").unwrap()),  // one letter
        (1, radpk(b"D1 ").unwrap()),  // a digit
        (2, 8),                       // a unit over 7
        (3, 0),                       // a name that begins with blanks
        (3, file("A$", "").name1),    // no letter and no digit
        (5, 0),                       // an extension of no character
        (6, 256),                     // a group over 377 octal
        (7, 256),                     // a user over 377 octal
        (8, 2),                       // a switch that no bytes back
        (9, 65535),                   // values that no bytes back
        (10, radpk(b"1W ").unwrap()), // a switch that begins with a digit
        (12, 0),                      // a value of two zero words
        (9 + 5 + 4, 1),               // a name of KB:, with no bit for it
    ];
    for (word, number) in changes {
        let mut records = good();
        records[2 * word..2 * word + 2].copy_from_slice(&(number as u16).to_le_bytes());
        refused(1, 1, &records);
    }
}

#[test]
fn lengths_and_counts_that_no_line_says() {
    let good = good();
    for length in 0..good.len() {
        refused(1, 1, &good[..length]);
    }
    refused(1, 1, &[&good[..], &[0]].concat());
    refused(1, 1, &[&good[..], &[0; 2]].concat());
    for (outputs, inputs) in [(0, 2), (2, 1), (1, 2), (1, 0), (0, 0), (usize::MAX, 1), (1, usize::MAX)] {
        refused(outputs, inputs, &good);
    }
    let mut buffer = [b'?'; 128];
    assert_eq!(csi_write(2, 0, &good, &mut buffer), Ok(29));
    assert_eq!(buffer[..30], *b"DT1:FREQ.DAT[23,10]/SW:A1,KB:?");
}

#[test]
fn lengths_of_what_is_written() {
    let mut buffer = [b'?'; 130];
    let empty = [0; 18 * 130];
    assert_eq!(csi_write(130, 0, &empty, &mut []), Err(Refusal::LineLong));
    assert_eq!(csi_write(129, 0, &empty[18..], &mut buffer[..127]), Err(Refusal::BufferShort));
    assert_eq!(buffer, [b'?'; 130]);
    assert_eq!(csi_write(129, 0, &empty[18..], &mut buffer), Ok(128));
    assert_eq!(buffer[..128], [b','; 128]);
    assert_eq!(buffer[128..], *b"??");
    // What no line says comes before what is too long.
    assert_eq!(csi_write(130, 0, &empty[1..], &mut []), Err(Refusal::Argument));
}
