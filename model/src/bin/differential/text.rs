//! Text (02, §1) as it is written, and as it stands in the bodies of a pack to be read.

use crate::random::Random;
use model::pack::form::Form;

pub const TERMINATORS: &[u8] = b"\n\x0b\x0c";
/// What is discarded, what something is put after, and what is near to a terminator and none.
const CONTROLS: &[u8] = b"\0\0\x7f\x7f\t\t\r\x08\x0e\x01\x1f\x0f";

/// Bytes of text: terminators once in so many, controls now and then, some bytes with bit 7 set. If they are many there
/// is often no terminator, so that counts are reached that are no words.
fn text(random: &mut Random, length: usize) -> Vec<u8> {
    let never = length > 65536 && random.chance(2, 3);
    let seldom = if never { 1 << 31 } else { random.pick(&[2, 10, 60, 800, 8000]) };
    let high = random.pick(&[2, 16, 4000]);
    let byte = |random: &mut Random| {
        let byte = match random.below(8) {
            _ if random.chance(1, seldom) => random.pick(TERMINATORS),
            0 => random.pick(CONTROLS),
            _ => random.between(0o40, 0o176) as u8,
        };
        byte | if random.chance(1, high) { 0o200 } else { 0 }
    };
    (0..length).map(|_| byte(random)).collect()
}

/// The same, as long as it takes no more than so many bytes with what is put after TAB and FORM FEED.
pub fn taking(random: &mut Random, bytes: usize) -> Vec<u8> {
    let mut text = text(random, bytes);
    let mut taken = 0;
    let fits = |byte: &&u8| {
        taken += if matches!(**byte, b'\t' | 0o14) { 2 } else { 1 };
        taken <= bytes
    };
    let fitting = text.iter().take_while(fits).count();
    text.truncate(fitting);
    text
}

/// Lays text over the blocks of half of the packs; some blocks end as an ending call leaves them, some with a line.
pub fn fill(random: &mut Random, form: Form, image: &mut [u8]) {
    if random.chance(1, 2) {
        return;
    }
    image.copy_from_slice(&text(random, image.len()));
    let endings = random.pick(&[3, 10, 1000]);
    for block in image.chunks_mut(form.block_bytes()) {
        match random.below(endings) {
            0 => block[random.below(form.block_bytes())..].fill(0),
            1 => block[form.block_bytes() - 1] = random.pick(TERMINATORS),
            _ => {}
        }
    }
}
