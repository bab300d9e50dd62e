//! Compares the library, a plain model of docs/FORMAT.md and the Rust that it describes with each other.

pub mod library;
pub mod oracle;
pub mod readings;
pub mod runs;
