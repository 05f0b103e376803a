//! Lists of records for many requests in one call: drawn, and held to the same requests made singly by the library.

use crate::call::{Call, Numbers, Said};
use crate::drawing;
use crate::random::Random;
use crate::request::Request;
use model::requests::many::{MOST_RECORDS, RECORD_BYTES};
use model::requests::File;
use model::words::{set_word, word};
use std::collections::BTreeMap;

/// The requests that a record can name, by the number in its word 0, from 1.
const LISTED: [Request; 10] = [
    Request::Alloc,
    Request::Delet,
    Request::Renam,
    Request::Appnd,
    Request::Keep,
    Request::Openo,
    Request::Openi,
    Request::Openu,
    Request::Opene,
    Request::Close,
];

/// Records and room for their answers, now and then of a wrong size.
pub fn list(random: &mut Random, image: &[u8]) -> (Numbers, Vec<u8>, Vec<u8>) {
    let count = match random.below(16) {
        0 => 0,
        1 | 2 => MOST_RECORDS,
        3 => MOST_RECORDS + 1,
        _ => random.between(1, 24),
    };
    let mut records: Vec<u8> = (0..count).flat_map(|_| record(random, image)).collect();
    if random.chance(1, 12) {
        let more = random.between(1, RECORD_BYTES - 1);
        records.extend(random.bytes(more));
    }
    let room = match random.below(8) {
        0 => records.len().saturating_sub(1),
        1 => random.below(records.len() + 1),
        2 => records.len() + random.below(70),
        _ => records.len(),
    };
    let answers = random.bytes(room);
    (Numbers::None, records, answers)
}

/// A record whose words that are not named are any.
fn record(random: &mut Random, image: &[u8]) -> Vec<u8> {
    let mut record = random.bytes(RECORD_BYTES);
    if random.chance(1, 12) {
        let number = random.pick(&[0, 11, 12, 13, 256 + 1, 65535]);
        set_word(&mut record, 0, number);
        return record;
    }
    let index = random.below(LISTED.len());
    let drawn = drawing::call(random, LISTED[index], image);
    let mut put = |at: usize, numbers: &[usize]| {
        for (place, &number) in numbers.iter().enumerate() {
            // Of a number that is too large, the low bits are taken.
            set_word(&mut record, at + place, number as u16);
        }
    };
    put(0, &[index + 1]);
    let words = |file: File| [file.name1, file.name2, file.extension, file.uic];
    match drawn.numbers {
        Numbers::New { caller, file, protect, segments } => {
            put(1, &[caller]);
            put(2, &words(file));
            put(6, &[protect]);
            if LISTED[index] == Request::Alloc {
                put(7, &[segments]);
            }
        }
        Numbers::File { caller, file } => {
            put(1, &[caller]);
            put(2, &words(file));
        }
        Numbers::Mode { caller, file, mode } => {
            put(1, &[caller]);
            put(2, &words(file));
            put(6, &[mode]);
        }
        Numbers::Rename { caller, old, new, protect } => {
            put(1, &[caller]);
            put(2, &words(old));
            put(6, &[new.name1, new.name2, new.extension, protect]);
        }
        Numbers::Append { caller, first, second } => {
            put(1, &[caller]);
            put(2, &words(first));
            put(6, &words(second));
        }
        numbers => unreachable!("{numbers:?}"),
    }
    record
}

/// The single call that a record asks for.
fn single(record: &[u8]) -> Option<Call> {
    let at = |index: usize| word(record, index) as usize;
    let request = *LISTED.get(at(0).checked_sub(1)?)?;
    let named =
        |index: usize| File { name1: at(index), name2: at(index + 1), extension: at(index + 2), uic: at(index + 3) };
    let (caller, file) = (at(1), named(2));
    let numbers = match request {
        Request::Alloc | Request::Openo => Numbers::New { caller, file, protect: at(6), segments: at(7) },
        Request::Renam => Numbers::Rename { caller, old: file, new: named(6), protect: at(9) },
        Request::Appnd => Numbers::Append { caller, first: file, second: named(6) },
        Request::Close => Numbers::Mode { caller, file, mode: at(6) },
        _ => Numbers::File { caller, file },
    };
    Some(Call { request, numbers, line: Vec::new(), buffer: Vec::new() })
}

/// How often each request in a record gave each code, and how long lists were.
#[derive(Default)]
pub struct Lists {
    codes: BTreeMap<(usize, usize), usize>,
    unknown: usize,
    longest: usize,
}

impl Lists {
    /// Makes the records singly on a copy of the image; says where that leaves another image or gives another answer.
    pub fn compare(&mut self, mut image: Vec<u8>, records: &[u8], made: (&[u8], &[u8])) -> Vec<String> {
        let mut differences = Vec::new();
        for (index, record) in records.chunks_exact(RECORD_BYTES).enumerate() {
            let due: Said = match single(record) {
                Some(call) => call.library(&mut image, &[], &mut []),
                None => vec![0o41],
            };
            match single(record) {
                Some(_) => *self.codes.entry((word(record, 0) as usize, due[0])).or_default() += 1,
                None => self.unknown += 1,
            }
            let answer = &made.1[RECORD_BYTES * index..RECORD_BYTES * (index + 1)];
            let words: Said = (0..RECORD_BYTES / 2).map(|at| word(answer, at) as usize).collect();
            let expected: Said = due.iter().copied().chain(std::iter::repeat(0)).take(words.len()).collect();
            if words != expected {
                differences.push(format!("record {index}: singly {expected:?}, in the list {words:?}"));
            }
        }
        if image != made.0 {
            differences.push(String::from("the records made singly leave another image"));
        }
        self.longest = self.longest.max(records.len() / RECORD_BYTES);
        differences
    }

    pub fn print(&self) {
        println!(
            "records in lists, octal code: times; {} named no request; the longest list has {}",
            self.unknown, self.longest
        );
        for (index, request) in LISTED.iter().enumerate() {
            print!("{:>19}  ", format!("{request:?}"));
            for &code in request.codes() {
                print!("  {code:02o}: {}", self.times(index + 1, code));
            }
            println!();
        }
    }

    fn times(&self, number: usize, code: usize) -> usize {
        self.codes.get(&(number, code)).copied().unwrap_or(0)
    }

    /// The codes of a record that could be reached and were not.
    pub fn missed(&self) -> Vec<String> {
        let mut missed = Vec::new();
        for (index, request) in LISTED.iter().enumerate() {
            for &code in request.codes().iter().filter(|&&code| self.times(index + 1, code) == 0) {
                missed.push(format!("{code:02o} of {request:?} in a record"));
            }
        }
        if self.unknown == 0 || self.longest < MOST_RECORDS {
            missed.push(String::from("a record that names no request, and a list of 64"));
        }
        missed
    }
}
