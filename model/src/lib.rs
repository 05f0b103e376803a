//! The file service of document 01, with the lines, cleared blocks, bounds, writing, report, free map, moves, lists of requests, binary lines, 64-word disk and Finish of 02 (§1 to §4,
//! §6 to §12), as a plain program, written from those papers and not from the library, so that the two can be run side by side. Nothing here is proved; what
//! counts is that it was written apart.

pub mod answers;
pub mod boundary;
pub mod command;
pub mod conversions;
pub mod listing;
pub mod pack;
pub mod refusal;
pub mod report;
pub mod requests;
pub mod words;

#[cfg(test)]
mod examples;
