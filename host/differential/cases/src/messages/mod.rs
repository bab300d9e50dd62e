//! Rules and templates with a defect, whose message holds names, values and numbers of every spelling.

pub mod edges;
pub mod generate;
mod renamed;
