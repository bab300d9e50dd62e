//! `rulecheck_widens`, compared with what the model answers: every byte of the result and around it, and every number.

use crate::library::arena::{in_arena, mixed};
use crate::library::lent::{Extent, Slot};
use cases::limits::RESULT_BYTES;
use cases::widens::WidensCase;

/// Compares the library with the model's numbers. An error says how they differ.
pub fn hold(case: &WidensCase, numbers: &[u32; 7], extent: Extent) -> Result<(), String> {
    slots(case, extent).iter().try_for_each(|slot| {
        let expected = if slot.length < RESULT_BYTES { [3, 0, 0, 0, 0, 0, 0] } else { *numbers };
        in_arena(slot, || format!("{expected:?}"), |arena| arena.widens(case, slot, &expected))
    })
}

/// The result of the case itself, longer than it must be in part of the cases; and a short one or one without a byte to spare, at random or both.
fn slots(case: &WidensCase, extent: Extent) -> Vec<Slot> {
    let chance = mixed([0, 0], &[&case.first, &case.second]);
    let spare = if case.result_len < RESULT_BYTES { 0 } else { [0, 0, 1, 3, 4, 36][chance as usize % 6] };
    let own = Slot { length: case.result_len + spare, shift: (chance >> 8) as usize % 4, pattern: (chance >> 16) as usize % 2 };
    let short = Slot { length: (chance >> 32) as usize % RESULT_BYTES, ..own };
    let exact = Slot { length: case.result_len, pattern: 1 - own.pattern, ..own };
    let others = match (extent, (chance >> 20) % 8) {
        (Extent::All, _) => vec![short, exact],
        (Extent::Some, 0) => vec![short],
        (Extent::Some, 1) => vec![exact],
        _ => Vec::new(),
    };
    [vec![own], others].concat()
}
