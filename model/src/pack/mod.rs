//! The pack image: contents first, then bodies (01, "The pack image").

pub mod blocks;
pub mod consistency;
pub mod entry;
pub mod form;
pub mod header;
pub mod map;
pub mod name;
pub mod owner;
mod places;
pub mod rights;
