//! Format: "writes blocks 0 to c, bodies untouched"; where there is a map (02, §7), that too.

use crate::pack::form::Form;
use crate::pack::header::{Uics, FIRST_UIC};
use crate::pack::map;
use crate::refusal::{require, Refusal};
use crate::words::set_word;

/// Makes an empty pack of an image. The UICs are words, two bytes each.
pub fn format(image: &mut [u8], form: usize, blocks: usize, contents: usize, uics: &[u8]) -> Result<(), Refusal> {
    let form = Form::of_word(form).ok_or(Refusal::Argument)?;
    let measures = form.is_blocks(blocks) && form.is_contents(contents, blocks);
    require(measures && image.len() == form.block_bytes() * blocks, Refusal::Argument)?;
    require(uics.len().is_multiple_of(2) && Uics::read(form, uics).is_some(), Refusal::Argument)?;

    image[..form.block_bytes() * form.first_body(contents)].fill(0);
    set_word(image, 0, form.word);
    set_word(image, 1, blocks as u16);
    set_word(image, 2, contents as u16);
    set_word(image, 3, (uics.len() / 2) as u16);
    image[2 * FIRST_UIC..2 * FIRST_UIC + uics.len()].copy_from_slice(uics);
    map::renew(image);
    Ok(())
}
