//! `rulecheck_tally`, compared with what the model answers: every byte of the result, of the path buffer past what is free, and around both, and every number.

use crate::library::arena::{in_arena, mixed};
use crate::library::lent::{Extent, Slot, TallyLent};
use cases::books::BookCase;
use cases::limits::MIN_PATH_BYTES;
use model::{TallyNumbers, TALLY_BYTES};

/// Compares the library with the model's numbers. An error says how they differ.
pub fn hold(case: &BookCase, numbers: &TallyNumbers, extent: Extent) -> Result<(), String> {
    calls(case, extent).iter().try_for_each(|lent| {
        let expected = expected(case, numbers, lent);
        in_arena(lent, || format!("{expected:?}"), |arena| arena.tally(case, lent, &expected))
    })
}

/// What is answered, given the model's answer to the case: a buffer may be shorter than the case says.
fn expected(case: &BookCase, numbers: &TallyNumbers, lent: &TallyLent) -> TallyNumbers {
    let is_cut = lent.path < case.path_len.min(MIN_PATH_BYTES) || lent.slot.length < case.result_len.min(TALLY_BYTES);
    match numbers[0] {
        1 | 2 => *numbers,
        _ if is_cut => std::array::from_fn(|index| if index == 0 { 3 } else { 0 }),
        _ => *numbers,
    }
}

/// The call of the case itself, with longer buffers than needed in part of the cases; and, at random or all of them, one with a short path buffer, one with a short result,
/// and one without a byte to spare.
fn calls(case: &BookCase, extent: Extent) -> Vec<TallyLent> {
    let chance = mixed([case.kind, case.semantics], &case.inputs());
    let spare =
        |length: usize, least: usize, more: &[usize]| if length < least { length } else { length + more[chance as usize % more.len()] };
    let slot = Slot {
        length: spare(case.result_len, TALLY_BYTES, &[0, 0, 1, 7, 8, 36]),
        shift: (chance >> 8) as usize % 8,
        pattern: (chance >> 16) as usize % 2,
    };
    let own = TallyLent { path: spare(case.path_len, MIN_PATH_BYTES, &[0, 0, 1, 7, 64]), slot };
    let others = [
        TallyLent { path: [0, MIN_PATH_BYTES - 1][chance as usize % 2], ..own },
        TallyLent { slot: Slot { length: (chance >> 32) as usize % TALLY_BYTES, ..slot }, ..own },
        TallyLent { slot: Slot { length: TALLY_BYTES - 1, ..slot }, ..own },
        TallyLent { path: case.path_len, slot: Slot { length: case.result_len, pattern: 1 - slot.pattern, ..slot } },
    ];
    let picked = (chance >> 20) as usize % 16;
    let others = others.into_iter().enumerate().filter(|(at, _)| extent == Extent::All || picked == *at);
    [own].into_iter().chain(others.map(|(_, lent)| lent)).collect()
}
