//! The commands: what they ask, who must agree, and what they print.

pub mod agreement;
pub mod books;
pub mod changes;
pub mod compare;
pub mod exhaustive;
pub mod fuzzed;
pub mod instants;
pub mod json;
pub mod keys;
pub mod marks;
pub mod memory;
pub mod messages;
pub mod moved;
pub mod openings;
pub mod published;
pub mod record;
pub mod tables;
pub mod tally;
pub mod text_samples;
pub mod vectors;
pub mod walls;
pub mod widened;
pub mod widens;
