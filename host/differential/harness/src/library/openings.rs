//! `rulecheck_openings`, compared with what the model answers: every byte of the list, of the result, of the path buffer past what is free, and around all three.

use crate::library::arena::{in_arena, mixed};
use crate::library::lent::{Extent, OpeningsLent, Slot};
use cases::limits::MIN_PATH_BYTES;
use cases::openings::{Opened, OpeningsCase};
use model::{OPENINGS_BYTES, OPENING_LIST_BYTES};

/// Compares the library with the model. An error says how they differ.
pub fn hold(case: &OpeningsCase, opened: &Opened, extent: Extent) -> Result<(), String> {
    calls(case, extent).iter().try_for_each(|lent| {
        let expected = expected(case, opened, lent);
        in_arena(lent, || format!("{expected:?}"), |arena| arena.openings(case, lent, &expected))
    })
}

/// What is answered, given the model's answer to the case: a buffer may be shorter than the case says.
fn expected(case: &OpeningsCase, opened: &Opened, lent: &OpeningsLent) -> Opened {
    let is_cut = lent.path < case.path_len.min(MIN_PATH_BYTES) || lent.slot.length < case.result_len.min(OPENINGS_BYTES);
    let is_list_cut = lent.list < case.list_len.min(OPENING_LIST_BYTES);
    match opened.0[0] {
        1 => opened.clone(),
        _ if is_cut => ([3, 0, 0], Vec::new()),
        3 => opened.clone(),
        _ if is_list_cut => ([36, 0, 0], Vec::new()),
        _ => opened.clone(),
    }
}

/// The call of the case itself, with longer buffers than needed in part of the cases; and, at random or all of them, such with a short path buffer, a short result or a short list, and
/// one without a byte to spare.
fn calls(case: &OpeningsCase, extent: Extent) -> Vec<OpeningsLent> {
    let chance = mixed([case.kind, case.semantics], &case.inputs());
    let spare = |length: usize, least: usize, more: &[usize]| match length < least {
        true => length,
        false => length + more[chance as usize % more.len()],
    };
    let slot = Slot {
        length: spare(case.result_len, OPENINGS_BYTES, &[0, 0, 1, 3, 4, 36]),
        shift: (chance >> 8) as usize % 4,
        pattern: (chance >> 16) as usize % 2,
    };
    let own = OpeningsLent {
        path: spare(case.path_len, MIN_PATH_BYTES, &[0, 0, 1, 7, 64]),
        list: spare(case.list_len, OPENING_LIST_BYTES, &[0, 0, 1, 4, 100, 4_000]),
        slot,
    };
    let few = [0, 4, OPENING_LIST_BYTES - 4, OPENING_LIST_BYTES - 1, (chance >> 40) as usize % OPENING_LIST_BYTES];
    let others = [
        OpeningsLent { path: [0, MIN_PATH_BYTES - 1][chance as usize % 2], ..own },
        OpeningsLent { slot: Slot { length: (chance >> 32) as usize % OPENINGS_BYTES, ..slot }, ..own },
        OpeningsLent { list: few[(chance >> 12) as usize % 5].min(own.list), ..own },
        OpeningsLent { list: 0, slot: Slot { length: OPENINGS_BYTES - 1, ..slot }, ..own },
        OpeningsLent {
            path: case.path_len,
            list: case.list_len,
            slot: Slot { length: case.result_len, pattern: 1 - slot.pattern, ..slot },
        },
    ];
    let picked = (chance >> 20) as usize % 16;
    let others = others.into_iter().enumerate().filter(|(at, _)| extent == Extent::All || picked == *at);
    [own].into_iter().chain(others.map(|(_, lent)| lent)).collect()
}
