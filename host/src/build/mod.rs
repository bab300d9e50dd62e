//! Builders that write sheets from Rust values (docs/FORMAT.md, "Sheets").
//!
//! A builder holds what is written so far and never a tree, so nesting costs no stack. Where a limit is passed, it holds the error,
//! which `sheet` then returns.

mod error;
mod part;
mod rule;
mod schema;
mod value;

pub use error::BuildError;
pub use rule::{Condition, Rule, Template};
pub use schema::{Field, Schema};
pub use value::Value;
