//! Moves between forms (02, §8), with the numbers that the paper has.

use super::{file, OWNER};
use crate::pack::consistency::examine;
use crate::pack::form::Form;
use crate::refusal::Refusal;
use crate::requests::{self, to_form1, to_form2};
use crate::words::{set_word, word};

/// A pack of form 1 with 16 blocks: a contiguous file of two, a linked one of three, and one of none, some open. Every body begins with a number.
fn pack() -> Vec<u8> {
    let mut image = super::pack(Form::ONE, 16, &[OWNER]);
    (2..16).for_each(|block| set_word(&mut image, 256 * block, block as u16 % 4));
    requests::alloc(&mut image, OWNER, file("ROW", ""), 0, 8).expect("there is room");
    set_word(&mut image, 256 * 14, 9);
    for name in ["LINK", "NONE"] {
        requests::openo(&mut image, OWNER, file(name, ""), 0).expect("there is an entry");
    }
    for byte in 0..3 {
        requests::linked_add(&mut image, OWNER, file("LINK", ""), &[byte; 510]).expect("there is room");
    }
    image
}

fn up(source: &[u8]) -> Vec<u8> {
    let mut target = vec![0o252; source.len() + 512];
    to_form2(source, &mut target).expect("it can be moved");
    target
}

#[test]
fn every_number_rises_by_one() {
    let (source, target) = (pack(), up(&pack()));
    let field = |image: &[u8], entry: usize, index: usize| word(image, 256 + 16 * entry + index);
    assert_eq!([word(&target, 0), word(&target, 1), word(&target, 2)], [2, 17, 1]);
    for entry in 0..2 {
        for index in [6, 8] {
            assert_eq!(field(&target, entry, index), field(&source, entry, index) + 1);
        }
    }
    assert_eq!([field(&target, 2, 6), field(&target, 2, 8)], [0, 0]);
    assert_eq!(field(&target, 1, 9), 2);
    // The chain is 13, 12, 11 and becomes 14, 13, 12; its last link stays 0. A contiguous body keeps its first word, as a free one does.
    assert_eq!([14, 13, 12].map(|block| word(&target, 256 * block)), [13, 12, 0]);
    assert_eq!([15, 3].map(|block| word(&target, 256 * block)), [9, 2]);
    assert_eq!(word(&target, 512), 0b1111_0000_0000_0111 | 1 << 12);
    assert!(examine(&target).is_ok());
}

#[test]
fn there_and_back_is_every_byte_again() {
    let (source, there) = (pack(), up(&pack()));
    let mut back = vec![0o125; source.len()];
    assert_eq!(to_form1(&there, &mut back), Ok(()));
    assert_eq!(back, source);
    let mut again = vec![0; there.len()];
    assert_eq!(to_form2(&back, &mut again), Ok(()));
    assert_eq!(again, there);
}

/// The code of a move to form 1 of an empty pack of form 2, into a target of n - 1 blocks.
fn down(blocks: usize, contents: usize) -> Result<(), Refusal> {
    let mut image = vec![0; 512 * blocks];
    requests::format(&mut image, 2, blocks, contents, &[]).expect("the arguments are good");
    to_form1(&image, &mut vec![0; 512 * (blocks - 1)])
}

#[test]
fn what_form_1_does_not_have() {
    assert_eq!([16, 17, 1025, 1026].map(|blocks| down(blocks, 1)), [Err(Refusal::Argument), Ok(()), Ok(()), Err(Refusal::Argument)]);
    assert_eq!([8, 9].map(|contents| down(17, contents)), [Ok(()), Err(Refusal::Argument)]);
}

#[test]
fn refusals_leave_the_target() {
    let (source, mut target) = (pack(), vec![7; 512 * 17 + 1]);
    assert_eq!(to_form2(&source, &mut target), Err(Refusal::Argument));
    assert_eq!(to_form2(&source, &mut target[..512 * 17 - 1]), Err(Refusal::Argument));
    assert_eq!(to_form1(&source, &mut target[..512 * 15]), Err(Refusal::Inconsistent));
    assert_eq!(to_form2(&up(&source), &mut target[..512 * 18 - 512]), Err(Refusal::Inconsistent));
    assert_eq!(to_form2(&super::smallest(Form::THREE), &mut target), Err(Refusal::Inconsistent));
    assert_eq!(target, vec![7; 512 * 17 + 1]);
}
