//! `rulecheck_path`, compared with what the model answers: every byte of the result and around it, and every number.

use crate::library::arena::{in_arena, mixed};
use crate::library::lent::{Extent, Slot};
use crate::readings::answer::line;
use cases::keys::KeyCase;
use cases::limits::RESULT_BYTES;
use model::Answer;

/// Compares the library with the model's answer to the case. An error says how they differ.
pub fn hold(case: &KeyCase, answer: &Answer, extent: Extent) -> Result<(), String> {
    slots(case, extent).iter().try_for_each(|slot| {
        let expected = expected(case, answer, slot);
        in_arena(slot, || line(&expected), |arena| arena.key(case, slot, &expected))
    })
}

/// The result of the case itself, longer than it must be in part of the cases; and a short one or one without a byte to spare, at random or both.
fn slots(case: &KeyCase, extent: Extent) -> Vec<Slot> {
    let chance = mixed([case.semantics, case.reader], &[&case.path, &case.schema]);
    let spare = if case.result_len < RESULT_BYTES { 0 } else { [0, 0, 1, 3, 4, 36][chance as usize % 6] };
    let own = Slot { length: case.result_len + spare, shift: (chance >> 8) as usize % 4, pattern: (chance >> 16) as usize % 2 };
    let short = Slot { length: (chance >> 32) as usize % RESULT_BYTES, ..own };
    let exact = Slot { length: case.result_len, pattern: 1 - own.pattern, ..own };
    let others = match (extent, (chance >> 20) % 8) {
        (Extent::All, _) => vec![short, exact],
        (Extent::Some, 0) => vec![short],
        (Extent::Some, 1) => vec![exact],
        _ => Vec::new(),
    };
    [vec![own], others].concat()
}

/// What is answered, given the model's answer to the case, where the result may be shorter than the case says.
fn expected(case: &KeyCase, answer: &Answer, slot: &Slot) -> Answer {
    let is_cut = slot.length < RESULT_BYTES && case.result_len >= RESULT_BYTES;
    match answer.number {
        1 | 2 => answer.clone(),
        _ if is_cut => Answer { number: 3, ..Answer::default() },
        _ => answer.clone(),
    }
}
