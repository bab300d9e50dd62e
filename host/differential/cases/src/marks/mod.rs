//! Rules that compare instants.

pub mod edges;
pub mod generate;
