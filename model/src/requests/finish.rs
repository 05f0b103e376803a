//! Finish (02, §12).

use crate::pack::consistency::examine;
use crate::pack::entry::{self, Entry};
use crate::pack::map;
use crate::pack::rights::rights;
use crate::refusal::Refusal;

/// "every file of the caller's UIC that has bit 7 clear, is not open, and that DELET would allow"
fn is_scratch(caller: usize, file: &Entry) -> bool {
    file.uic as usize == caller && file.protect & 0o200 == 0 && !file.is_open() && rights(caller, file).delete
}

/// Finish: deletes them, in stored order, and returns how many. "Refusals: 40 only."
pub fn finish(image: &mut [u8], caller: usize) -> Result<usize, Refusal> {
    let pack = examine(image)?;
    let mut number = 0;
    for index in 0..pack.header.entries() {
        let bytes = pack.form().entry_mut(image, index);
        // An empty entry has UIC 0, and so may a caller.
        if !entry::is_empty(bytes) && is_scratch(caller, &Entry::read(bytes)) {
            bytes.fill(0);
            number += 1;
        }
    }
    map::renew(image);
    Ok(number)
}
