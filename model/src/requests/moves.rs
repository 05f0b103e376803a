//! Moves between forms (02, §8): "Convert form 1 to form 2 in a second lent image with one block more", and "the way back".

use crate::pack::consistency::examine;
use crate::pack::entry::{Entry, FIRST, LAST, LINKED};
use crate::pack::form::Form;
use crate::pack::map;
use crate::refusal::{require, Refusal};
use crate::words::set_word;

pub fn to_form2(source: &[u8], target: &mut [u8]) -> Result<(), Refusal> {
    convert(source, target, Form::ONE, Form::TWO)
}

pub fn to_form1(source: &[u8], target: &mut [u8]) -> Result<(), Refusal> {
    convert(source, target, Form::TWO, Form::ONE)
}

fn convert(source: &[u8], target: &mut [u8], from: Form, to: Form) -> Result<(), Refusal> {
    let header = examine(source)?.header;
    require(header.form == from, Refusal::Inconsistent)?;
    // The system's blocks are one more or one less, and all behind them move with that.
    let there = |block: usize| block + to.system - from.system;
    let measures = to.is_blocks(there(header.blocks)) && to.is_contents(header.contents, there(header.blocks));
    require(measures && target.len() == to.block_bytes() * there(header.blocks), Refusal::Argument)?;

    // "contents are copied with the new form and n".
    let contents = from.block_bytes() * (header.contents + 1);
    target[..contents].copy_from_slice(&source[..contents]);
    set_word(target, 0, to.word);
    set_word(target, 1, there(header.blocks) as u16);
    // "every body moves up by one block".
    for block in header.bodies() {
        to.block_mut(target, there(block)).copy_from_slice(from.block(source, block));
    }
    // "first, last and link numbers that are not 0 rise by one".
    let number = |block: usize| if block == 0 { 0 } else { there(block) as u16 };
    for index in 0..header.entries() {
        let file = Entry::read(from.entry(source, index));
        set_word(to.entry_mut(target, index), FIRST, number(file.first as usize));
        set_word(to.entry_mut(target, index), LAST, number(file.last as usize));
        if file.kind != LINKED {
            continue;
        }
        let mut block = file.first as usize;
        while block != 0 {
            let next = from.link(source, block);
            set_word(to.block_mut(target, there(block)), 0, number(next));
            block = next;
        }
    }
    // "the map is made".
    map::renew(target);
    Ok(())
}
