//! CSI2: tells the specification at a place of a side, and writes its switches to a lent buffer.

use super::{not_in_grammar, reading, Specification, MOST_CONDENSED};
use crate::refusal::{require, LineRefusal, Refusal};

/// The specification at place `k`, from 0, of side 0 (output) or 1 (input).
pub fn csi2<'line>(
    line: &'line [u8],
    side: usize,
    k: usize,
    switches: &mut [u8],
) -> Result<Specification<'line>, LineRefusal> {
    require(line.len() <= MOST_CONDENSED, Refusal::LineLong)?;
    let mut found = None;
    // The whole line is read, since one that is not in the grammar, or has a number over its bound, is refused whatever is
    // asked of it.
    let bounded = reading::read(line, |its_side, its_place, specification| {
        if (its_side, its_place) == (side, k) {
            found = Some(specification);
        }
    })
    .ok_or_else(|| not_in_grammar(line))?;
    require(bounded, Refusal::Number)?;
    let specification = found.ok_or(Refusal::NoSpecification)?;
    let written = switches.get_mut(..specification.switches.bytes()).ok_or(Refusal::BufferShort)?;
    specification.switches.write(written);
    Ok(specification)
}
