//! What the library, the model and the Rust are asked: cases whose answers are known, random cases, and smaller ones where a case shows a difference.

pub mod books;
pub mod bound;
pub mod case;
pub mod edges;
pub mod generate;
pub mod instants;
pub mod json;
pub mod keys;
pub mod limits;
pub mod longest;
pub mod marks;
pub mod messages;
pub mod openings;
pub mod random;
pub mod samples;
pub mod shrink;
pub mod slips;
pub mod tables;
pub mod walls;
pub mod widens;
