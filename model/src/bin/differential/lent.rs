//! A slice as it is lent to a call, between bytes that nobody may touch.

/// An odd number of bytes, so that what is lent starts at no even address.
const FENCE: usize = 61;
const FENCE_BYTE: u8 = 0o246;

#[derive(PartialEq, Eq)]
pub struct Lent {
    bytes: Vec<u8>,
}

impl Lent {
    pub fn new(content: &[u8]) -> Lent {
        let mut lent = Lent { bytes: Vec::new() };
        lent.set(content);
        lent
    }

    /// Lends another content.
    pub fn set(&mut self, content: &[u8]) {
        self.bytes.clear();
        self.bytes.resize(FENCE, FENCE_BYTE);
        self.bytes.extend_from_slice(content);
        self.bytes.resize(FENCE + content.len() + FENCE, FENCE_BYTE);
    }

    pub fn slice(&self) -> &[u8] {
        &self.bytes[FENCE..self.bytes.len() - FENCE]
    }

    pub fn slice_mut(&mut self) -> &mut [u8] {
        let end = self.bytes.len() - FENCE;
        &mut self.bytes[FENCE..end]
    }

    /// Where this and another first differ, counted from the start of the slice, with both bytes.
    pub fn difference(&self, other: &Lent) -> Option<String> {
        if self == other {
            return None;
        }
        let pairs = self.bytes.iter().zip(&other.bytes).enumerate();
        let differing: Vec<_> = pairs.filter(|(_, (one, two))| one != two).collect();
        let Some(&(at, (one, two))) = differing.first() else {
            return Some(format!("{} bytes against {}", self.bytes.len(), other.bytes.len()));
        };
        Some(format!(
            "{} bytes differ, the first at {}: {one:#04x} and {two:#04x}",
            differing.len(),
            at as isize - FENCE as isize
        ))
    }
}
