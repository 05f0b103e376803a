//! Numbers and sizes that are wrong, near to such as are good.

use crate::random::Random;
use model::pack::form::{Form, SEGMENT_BYTES};

/// Numbers that are too large for what they are given for, some so that their low 16 or 32 bits would be good.
pub const HUGE: [usize; 10] =
    [64000, 65535, 65536, 65537, 1 << 31, (1 << 32) + 1, 1 << 63, (1 << 63) + 3, usize::MAX - 2, usize::MAX];

/// The segments of a block on the devices that stations have (02, §11: "1 or 4").
const DEVICES: [usize; 2] = [1, 4];

/// The bytes of a block of some device.
pub fn device_block(random: &mut Random) -> usize {
    SEGMENT_BYTES * random.pick(&DEVICES)
}

/// A buffer for a transfer, mostly of the size asked; else of one near to those of the form, or of those of some device.
pub fn transfer_buffer(random: &mut Random, form: Form, size: usize) -> Vec<u8> {
    let (payload, block) = (form.payload_bytes(), form.block_bytes());
    let length = match random.below(30) {
        0 => random.below(3),
        1 => random.pick(&[payload - 1, payload, payload + 1, block, block + 1, block + 2, 2 * block]),
        2 => device_block(random) - random.pick(&[0, 2]),
        _ => size,
    };
    random.bytes(length)
}
