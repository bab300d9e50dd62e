//! Name tables: checks that are lent one, and tables to load.

pub mod edges;
pub mod generate;

use model::load_table;

/// What a caller of `rulecheck_load_table` hands over, and the number that is known beforehand.
#[derive(Clone, Debug, PartialEq, Eq)]
pub struct LoadCase {
    pub table: Vec<u8>,
    pub buffer_len: usize,
    pub expect: Option<u32>,
}

impl LoadCase {
    /// The model's answer, and the bytes that it leaves in a buffer of zeros.
    pub fn answer(&self) -> (u32, Vec<u8>) {
        let mut buffer = vec![0; self.buffer_len];
        (load_table(&self.table, &mut buffer), buffer)
    }
}
