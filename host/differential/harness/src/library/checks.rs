//! `rulecheck_rule`, `rulecheck_template` and `rulecheck_check`, compared with what the model answers: every byte of the buffers and around them, and every number.

use super::arena::{in_arena, mixed};
use super::entry::Entry;
use super::lent::{Extent, Lent};
use crate::readings::answer::line;
use cases::case::Case;
use cases::limits::{MIN_PATH_BYTES, MIN_SCRATCH_WORDS, RESULT_BYTES};
use model::{Answer, MARKS_BYTES};

/// Compares the library with the model's answer to the case. An error says how they differ.
pub fn hold(case: &Case, answer: &Answer, extent: Extent) -> Result<(), String> {
    calls(case, extent).iter().try_for_each(|lent| one(case, answer, lent))
}

/// Which of the other calls is made, each row equally often: the other entry and the one for both sheets in a quarter of the cases each, short buffers
/// less often. The last one, buffers without a byte to spare, is often the own call already.
const PICKS: [Option<usize>; 16] = {
    let (other, result, path, all, both, list) = (Some(0), Some(1), Some(2), Some(3), Some(4), Some(5));
    [other, other, other, other, result, path, all, list, both, both, both, both, None, None, None, None]
};

/// The calls of a case: its own, with short buffers where the case has them, and others.
fn calls(case: &Case, extent: Extent) -> Vec<Lent> {
    let chance = mixed([case.kind, case.semantics], &[&case.label, &case.table, &case.schema, &case.rule]);
    let entry = if extent == Extent::Marks { Entry::Check } else { Entry::of(case, chance) };
    let spare = [0, 0, 1, 7, 64][chance as usize % 5];
    let path = if case.path_len < MIN_PATH_BYTES { case.path_len } else { MIN_PATH_BYTES + spare };
    let short = (chance >> 32) as usize % RESULT_BYTES;
    let spare_result = [0, 0, 1, 3, 4, 36][chance as usize % 6];
    let result_of = |entry: Entry| if case.scratch_len < MIN_SCRATCH_WORDS { short } else { entry.result_bytes() + spare_result };
    let (result, marks) = (result_of(entry), MARKS_BYTES + [0, 0, 1, 3, 4, 100][(chance >> 8) as usize % 6]);
    let own = Lent { entry, path, marks, result, shift: chance as usize % 4, pattern: chance as usize / 4 % 2 };
    let few = [0, 4, MARKS_BYTES - 4, MARKS_BYTES - 1, (chance >> 40) as usize % MARKS_BYTES][(chance >> 12) as usize % 5];
    let both = Lent { entry: Entry::Check, result: result_of(Entry::Check), ..own };
    let others = [
        Lent { entry: entry.other(), ..own },
        Lent { result: short, ..own },
        Lent { path: [0, 1, MIN_PATH_BYTES - 1, (chance >> 40) as usize % MIN_PATH_BYTES][chance as usize / 8 % 4], ..own },
        Lent { entry: entry.other(), path: MIN_PATH_BYTES - 1, result: RESULT_BYTES - 1, ..own },
        Lent { pattern: 1 - own.pattern, ..both },
        Lent { marks: few, ..both },
        Lent { marks: few, path: MIN_PATH_BYTES - 1, ..both },
        Lent { path: path.min(MIN_PATH_BYTES), marks: MARKS_BYTES, result: result.min(entry.result_bytes()), ..own },
    ];
    let picked = PICKS[(chance >> 20) as usize % PICKS.len()];
    let is_made = |at: usize| match extent {
        Extent::Some => picked == Some(at),
        Extent::Marks => at == 5 && (chance >> 24) % 4 == 0,
        Extent::All => true,
    };
    let others = others.into_iter().enumerate().filter(|(at, _)| is_made(*at));
    [own].into_iter().chain(others.map(|(_, lent)| lent)).collect()
}

/// What the entry answers, given the model's answer to the case: a buffer may be shorter than the case says, and the sheet may be for the other entry.
fn expected(case: &Case, answer: &Answer, lent: &Lent) -> Answer {
    let is_path_cut = lent.path < case.path_len.min(MIN_PATH_BYTES);
    let is_result_cut = lent.result < lent.entry.result_bytes() && case.scratch_len >= MIN_SCRATCH_WORDS;
    match answer.number {
        1 | 2 => answer.clone(),
        _ if is_path_cut || is_result_cut => Answer { number: 3, ..Answer::default() },
        3 => answer.clone(),
        _ if lent.entry == Entry::Check && lent.marks < MARKS_BYTES => Answer { number: 35, ..Answer::default() },
        _ => lent.entry.answer(case, answer),
    }
}

fn one(case: &Case, answer: &Answer, lent: &Lent) -> Result<(), String> {
    let expected = expected(case, answer, lent);
    let marks = lent.entry.marks(case, &expected);
    in_arena(lent, || format!("{}, marks {marks:?}", line(&expected)), |arena| arena.call(case, lent, &expected, &marks))
}
