//! The six conversions between characters and numbers (01, "Conversions"): 41 for the size comes before 60.

pub mod numerals;
pub mod radix;

pub use numerals::{bin2d, bin2o, d2bin, o2bin};
pub use radix::{radpk, radup};
