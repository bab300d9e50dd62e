//! The sentence of a defect: that of the Rust, of the model and of the library, byte for byte.

pub mod rows;
pub mod run;
pub mod vectors;
