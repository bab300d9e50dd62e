//! Constant conditions: the marks of library, model and a second reading.

pub mod run;
pub mod vectors;
