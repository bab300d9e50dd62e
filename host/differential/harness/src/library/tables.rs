//! `rulecheck_load_table`, compared with what the model answers: the number, every byte of the buffer and around it, and every byte of the table.

use crate::library::arena::{in_arena, mixed};
use crate::library::lent::Slot;
use crate::library::raw;
use cases::tables::LoadCase;

/// Compares the library with the model's number. An error says how they differ.
pub fn hold(case: &LoadCase, number: u32) -> Result<(), String> {
    let chance = mixed([case.buffer_len as u64, 0], &[&case.table]) as usize;
    let slot = Slot { length: case.buffer_len, shift: chance / 2 % 4, pattern: chance % 2 };
    let loaded: &[u8] = if number == 0 { &case.table } else { &[] };
    in_arena(&slot, || number.to_string(), |arena| arena.write(raw::load, &case.table, &slot, number, loaded))
}
