//! The owner of a block, asked of any image: no request of 01, but of the C boundary, for the audit.

use crate::pack::consistency::examine;
use crate::pack::owner::{self, Owner};
use crate::refusal::{require, Refusal};

/// Whose a block is; refused where the pack has no such block.
pub fn owner(image: &[u8], block: usize) -> Result<Owner, Refusal> {
    let pack = examine(image)?;
    require(block < pack.header.blocks, Refusal::NoBlock)?;
    Ok(owner::owner(image, &pack, block))
}
