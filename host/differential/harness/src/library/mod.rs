//! The library under its C functions, compared with what the model answers.

mod arena;
pub mod books;
pub mod checks;
pub mod entry;
#[allow(dead_code, reason = "there is nothing to compare the version with")]
#[rustfmt::skip] // Its own crate lays it out.
#[path = "../../../../src/raw/functions.rs"]
mod functions;
pub mod instants;
pub mod json;
pub mod keys;
pub mod lent;
pub mod messages;
pub mod openings;
pub mod raw;
pub mod tables;
pub mod walls;
pub mod widens;
