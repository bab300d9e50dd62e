//! The figures of one group of sheets, for the tables and the plot.

use crate::sheets::Group;

/// One size of a group: the library, the Rust validating, the Rust building and validating, in nanoseconds.
pub struct Point {
    pub bytes: usize,
    pub times: [f64; 3],
}

/// What is measured of a group.
pub struct Row {
    pub group: &'static Group,
    /// Of the size in the table.
    pub bytes: usize,
    pub instructions: Option<[Option<u64>; 3]>,
    /// Bytes and the library's instructions at the middle size and at the largest.
    pub ends: Option<[(usize, Option<u64>); 2]>,
    pub points: Vec<Point>,
}

impl Row {
    /// The size in the table.
    pub fn listed(&self) -> &Point {
        self.points.iter().find(|point| point.bytes == self.bytes).expect("the size in the table is one of the plot's")
    }

    /// How the library's instructions grow from the middle size to the largest: 1 is with the bytes, 2 with their square.
    pub fn growth(&self) -> f64 {
        let Some([(few, Some(low)), (many, Some(high))]) = self.ends else { return f64::NAN };
        (high as f64 / low as f64).ln() / (many as f64 / few as f64).ln()
    }
}
