//! `rulecheck_wall`, compared with what the model prints: every byte of the pages' buffer, of the result, of the path buffer past what is free, and around all three.

use crate::library::arena::{in_arena, mixed};
use crate::library::lent::{Extent, Slot, TallyLent, WallLent};
use cases::limits::MIN_PATH_BYTES;
use cases::walls::{Printed, WallCase};
use model::{sheets, PAGE_BYTES, PAGE_SHEETS, WALL_BYTES};

/// Compares the library with the model. An error says how they differ.
pub fn hold(case: &WallCase, printed: &Printed, extent: Extent) -> Result<(), String> {
    calls(case, printed, extent).iter().try_for_each(|lent| {
        let expected = expected(case, printed, lent);
        in_arena(lent, || format!("{:?}", expected.0), |arena| arena.wall(case, lent, &expected))
    })
}

/// What is answered, given the model's answer to the case: a buffer may be shorter than the case says.
fn expected(case: &WallCase, printed: &Printed, lent: &WallLent) -> Printed {
    let (book, tally) = (&case.book, &lent.tally);
    let is_cut = tally.path < book.path_len.min(MIN_PATH_BYTES) || tally.slot.length < book.result_len.min(WALL_BYTES);
    let has_no_room = sheets(&book.book).is_some_and(|sheets| lent.pages < sheets.len().div_ceil(PAGE_SHEETS) * PAGE_BYTES);
    match printed.0[0] {
        1 | 2 => printed.clone(),
        _ if is_cut => ([3, 0], Vec::new()),
        0 | 37 | 38 if has_no_room => ([33, 0], Vec::new()),
        _ => printed.clone(),
    }
}

/// The call of the case itself, and at random, or all of them: a short path buffer, a short result, a buffer for the pages that is too short by a byte or by all, and one that is longer.
fn calls(case: &WallCase, printed: &Printed, extent: Extent) -> Vec<WallLent> {
    let book = &case.book;
    let chance = mixed([book.kind, book.semantics], &book.inputs());
    let more = |length: usize, least: usize, more: usize| if length < least { length } else { length + more };
    let slot = Slot {
        length: more(book.result_len, WALL_BYTES, [0, 0, 1, 7][chance as usize % 4]),
        shift: (chance >> 8) as usize % 8,
        pattern: (chance >> 16) as usize % 2,
    };
    let tally = TallyLent { path: more(book.path_len, MIN_PATH_BYTES, [0, 1, 64][chance as usize % 3]), slot };
    let own = WallLent { tally, pages: case.pages_len };
    // With more room it would not be the answer 33 any more.
    let room = if printed.0[0] == 33 { 0 } else { 81 };
    let others = [
        WallLent { tally: TallyLent { path: MIN_PATH_BYTES - 1, ..tally }, ..own },
        WallLent { tally: TallyLent { slot: Slot { length: (chance >> 32) as usize % WALL_BYTES, ..slot }, ..tally }, ..own },
        WallLent { pages: case.pages_len.saturating_sub(1), ..own },
        WallLent { pages: 0, ..own },
        WallLent { pages: case.pages_len + room, tally: TallyLent { slot: Slot { pattern: 1 - slot.pattern, ..slot }, ..tally } },
    ];
    let picked = (chance >> 20) as usize % 16;
    let others = others.into_iter().enumerate().filter(|(at, _)| extent == Extent::All || picked == *at);
    [own].into_iter().chain(others.map(|(_, lent)| lent)).collect()
}
