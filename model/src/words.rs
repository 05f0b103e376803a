//! Words of a slice of bytes: 16 bits, low byte first (000, 1.6.2).

/// Word `index` of the bytes, counted from 0.
#[inline]
pub fn word(bytes: &[u8], index: usize) -> u16 {
    u16::from_le_bytes([bytes[2 * index], bytes[2 * index + 1]])
}

/// Makes `value` word `index` of the bytes.
#[inline]
pub fn set_word(bytes: &mut [u8], index: usize, value: u16) {
    bytes[2 * index..2 * index + 2].copy_from_slice(&value.to_le_bytes());
}
