//! What is put around the files of the Rust so that they compile by themselves: the crate root, and stand-ins for modules that are not available.
//!
//! Nothing here decides an answer, apart from `timestamp` where the stand-in is used.
#![allow(dead_code, unused_imports, clippy::all)]

pub mod definition;
pub mod error;
pub mod identity;
pub mod number;
pub mod observed;
pub mod validation;

mod runtime;
mod timestamp;

pub use definition::*;
pub use error::*;

/// `Value::as_number` for a serde_json that does not have it yet; where it has, its own method is taken.
pub trait AsNumber {
    fn as_number(&self) -> Option<&serde_json::Number>;
}

impl AsNumber for serde_json::Value {
    fn as_number(&self) -> Option<&serde_json::Number> {
        match self {
            serde_json::Value::Number(number) => Some(number),
            _ => None,
        }
    }
}
