//! Many requests in one call (02, §9): a list of records, each made as the request that it names.

use super::{alloc, appnd, close, delet, keep, opene, openi, openo, openu, renam, File};
use crate::answers::{code, Answer};
use crate::refusal::{require, Refusal};
use crate::words::{set_word, word};

/// "16 words a record, at most 64".
pub const RECORD_BYTES: usize = 32;
pub const MOST_RECORDS: usize = 64;

/// Makes them in their order, and puts "the answer of each beside it".
pub fn many(image: &mut [u8], records: &[u8], answers: &mut [u8]) -> Result<(), Refusal> {
    require(records.len() / RECORD_BYTES <= MOST_RECORDS, Refusal::Argument)?;
    require(records.len() % RECORD_BYTES == 0, Refusal::Argument)?;
    require(answers.len() >= records.len(), Refusal::Argument)?;
    for (record, answer) in records.chunks_exact(RECORD_BYTES).zip(answers.chunks_exact_mut(RECORD_BYTES)) {
        let Answer { code, number } = single(image, record);
        answer.fill(0);
        set_word(answer, 0, code as u16);
        set_word(answer, 1, number as u16);
    }
    Ok(())
}

/// One record: a request, or none, which is 41 "before code 40 is looked at".
fn single(image: &mut [u8], record: &[u8]) -> Answer {
    let at = |index: usize| word(record, index) as usize;
    let file =
        |index: usize| File { name1: at(index), name2: at(index + 1), extension: at(index + 2), uic: at(index + 3) };
    let caller = at(1);
    let alone = |code: usize| Answer { code, number: 0 };
    match at(0) {
        1 => alloc(image, caller, file(2), at(6), at(7)).into(),
        2 => alone(code(delet(image, caller, file(2)))),
        3 => alone(code(renam(image, caller, file(2), File { uic: 0, ..file(6) }, at(9)))),
        4 => alone(code(appnd(image, caller, file(2), file(6)))),
        5 => alone(code(keep(image, caller, file(2)))),
        6 => alone(code(openo(image, caller, file(2), at(6)))),
        7 => alone(code(openi(image, caller, file(2)))),
        8 => alone(code(openu(image, caller, file(2)))),
        9 => alone(code(opene(image, caller, file(2)))),
        10 => alone(code(close(image, caller, file(2), at(6)))),
        _ => alone(Refusal::Argument.code()),
    }
}
