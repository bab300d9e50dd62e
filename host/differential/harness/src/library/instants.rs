//! `rulecheck_instant`, compared with what the model answers: the number, every byte of the fields and around them, and every byte of the text.

use crate::library::arena::{in_arena, mixed};
use crate::library::lent::Slot;
use crate::library::raw;
use crate::readings::instants::{answer, Fields};
use cases::limits::RESULT_BYTES;

/// Compares the library with the fields that the model reads, or none. An error says how they differ.
pub fn hold(text: &[u8], fields: Option<Fields>) -> Result<(), String> {
    let chance = mixed([text.len() as u64, 0], &[text]);
    let spare = [0, 0, 1, 3, 4, 36][chance as usize % 6];
    let own = Slot { length: RESULT_BYTES + spare, shift: (chance >> 8) as usize % 4, pattern: (chance >> 16) as usize % 2 };
    let short = Slot { length: (chance >> 32) as usize % RESULT_BYTES, ..own };
    let slots = if (chance >> 20) % 4 == 0 { vec![own, short] } else { vec![own] };
    slots.iter().try_for_each(|slot| {
        let (number, written) = answer(fields, slot.length);
        let expected = || format!("{number}, of the fields {fields:?}");
        in_arena(slot, expected, |arena| arena.write(raw::instant, text, slot, number, &written.unwrap_or_default()))
    })
}
