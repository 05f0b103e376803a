//! Writing a binary line, which is gathered as text is; it is ended by `line_end`.

use super::{FIRST_WORD, HEADER, MOST_DATA};
use crate::pack::consistency::examine;
use crate::pack::map;
use crate::refusal::{require, Refusal};
use crate::requests::gather::{require_gather, require_room, Gather};
use crate::requests::lines::Written;
use crate::requests::linked::require_writable;
use crate::requests::File;

/// Writes a line. "Refusals: as §1; 41 also for a longer line". It takes all data, and has no status.
pub fn binary_write(
    image: &mut [u8],
    caller: usize,
    file: File,
    data: &[u8],
    gather: &mut [u8],
    filled: usize,
) -> Result<Written, Refusal> {
    let pack = examine(image)?;
    file.require_legal()?;
    require(data.len() <= MOST_DATA, Refusal::Argument)?;
    require_gather(&pack, gather, filled)?;
    let index = require_writable(image, &pack, caller, &file)?;
    let line = line(data);
    require_room(&pack, gather, filled, line.len())?;

    let mut gathering = Gather::new(image, &pack, index, gather, filled, pack.free());
    gathering.put(&line);
    let filled = gathering.filled;
    map::renew(image);
    Ok(Written { count: data.len(), status: 0, filled })
}

/// The bytes of a line with these data.
fn line(data: &[u8]) -> Vec<u8> {
    let mut line = FIRST_WORD.to_vec();
    line.extend(((HEADER + data.len()) as u16).to_le_bytes());
    line.extend(data);
    // "one byte that makes the sum of all of them 0 modulo 256".
    line.push(line.iter().fold(0u8, |sum, &byte| sum.wrapping_sub(byte)));
    line
}
