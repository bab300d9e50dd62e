//! Second readings of the format, written apart from the model, of what the Rust does not see.

pub mod answer;
pub mod instants;
pub mod marks;
pub mod nodes;
pub mod openings;
pub mod plan;
pub mod refusals;
