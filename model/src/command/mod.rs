//! Command lines: CSI1 condenses a line and checks it, CSI2 tells one specification of it (01, "Command lines"), and
//! `writing` makes a line of such specifications (02, §4).
//!
//! Whether a line is a command, and what it says, is found by a reader that descends the grammar (`reading`). The place
//! with 50 is found another way: the grammar is written down once more as an automaton (`grammar`, `automaton`), which
//! is in no state left as soon as no command can go on.

pub mod automaton;
pub mod first;
pub mod grammar;
pub mod reading;
pub mod second;
pub mod writing;

pub use first::csi1;
pub use reading::Specification;
pub use second::csi2;
pub use writing::csi_write;

use crate::refusal::{LineRefusal, Refusal};

/// The most characters of a condensed line.
const MOST_CONDENSED: usize = 128;

/// The refusal of a line that is not in the grammar.
fn not_in_grammar(line: &[u8]) -> LineRefusal {
    LineRefusal { refusal: Refusal::Grammar, place: grammar::command().place(line) }
}
