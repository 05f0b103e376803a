//! What a caller may do with a file (01, "Rights"; 000, Figure 2-7).

use super::entry::Entry;

#[derive(Clone, Copy, Debug, PartialEq, Eq)]
pub struct Rights {
    pub delete: bool,
    pub write: bool,
    pub read: bool,
}

/// The rights of a caller. The owner is not subject to the group's bits, nor the group to those of all others.
pub fn rights(caller: usize, file: &Entry) -> Rights {
    let owner = file.uic as usize;
    let protect = file.protect;
    if caller == owner {
        let changes = protect & 0o100 == 0;
        return Rights { delete: changes, write: changes, read: true };
    }
    let bits = if caller / 256 == owner / 256 { protect / 8 % 8 } else { protect % 8 };
    Rights { delete: bits == 0, write: bits <= 1, read: bits <= 3 }
}
