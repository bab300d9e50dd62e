//! `rulecheck_explain`, compared with what the model answers and says: every byte of the buffers and around them, and every number.

use super::arena::{in_arena, mixed};
use super::entry::Entry;
use super::lent::{ExplainLent, Extent, Slot};
use crate::readings::answer::line;
use cases::case::Case;
use cases::limits::{EXPLAIN_RESULT_BYTES, MIN_PATH_BYTES, MIN_SCRATCH_WORDS};
use model::{Answer, MARKS_BYTES};

/// Compares the library with the model's answer to the case and its message. An error says how they differ.
pub fn hold(case: &Case, answer: &Answer, message: Option<&str>, extent: Extent) -> Result<(), String> {
    let message = message.unwrap_or_default().as_bytes();
    calls(case, answer, message.len(), extent).iter().try_for_each(|lent| one(case, answer, message, lent))
}

/// The calls of a case, with buffers for the message of its length, one more, one less and none, and others with something too short. Where some are made, a defect
/// has one call in which the message fits and one in which it may not; of what is accepted or refused every fourth case has a call.
fn calls(case: &Case, answer: &Answer, length: usize, extent: Extent) -> Vec<ExplainLent> {
    let chance = mixed([case.kind, case.semantics], &[&case.rule, &case.schema, &case.table, &case.label]);
    let path = if case.path_len < MIN_PATH_BYTES { case.path_len } else { MIN_PATH_BYTES + [0, 0, 1, 64][chance as usize % 4] };
    let short = (chance >> 32) as usize % EXPLAIN_RESULT_BYTES;
    let spare = [0, 0, 1, 3, 36][(chance >> 4) as usize % 5];
    let result = if case.scratch_len < MIN_SCRATCH_WORDS { short } else { EXPLAIN_RESULT_BYTES + spare };
    let slot = Slot { length: result, shift: chance as usize % 4, pattern: chance as usize / 4 % 2 };
    let own = ExplainLent { path, marks: MARKS_BYTES + spare, message: length, slot };
    let other = Slot { pattern: 1 - slot.pattern, ..slot };
    let fitting = [own, ExplainLent { message: length + 1, ..own }, ExplainLent { message: length + 1_000, slot: other, ..own }];
    let tight = [
        ExplainLent { message: length.saturating_sub(1), ..own },
        ExplainLent { message: 0, ..own },
        ExplainLent { message: length.saturating_sub(1), slot: other, ..own },
        ExplainLent { message: (chance >> 16) as usize % (length + 1), ..own },
        ExplainLent { marks: [0, MARKS_BYTES - 1][chance as usize / 8 % 2], message: 0, ..own },
        ExplainLent { path: [0, MIN_PATH_BYTES - 1][chance as usize / 8 % 2].min(path), ..own },
        ExplainLent { slot: Slot { length: short.min(result), ..slot }, ..own },
    ];
    let picked = [fitting[(chance >> 20) as usize % fitting.len()], tight[(chance >> 24) as usize % tight.len()]];
    match extent {
        Extent::All => fitting.into_iter().chain(tight).collect(),
        _ if answer.number >= 11 && answer.number <= 22 => picked.to_vec(),
        _ if (chance >> 28) % 4 == 0 => picked[..1].to_vec(),
        _ => Vec::new(),
    }
}

/// What is answered, given the model's answer to the case: a buffer may be shorter than the case says.
fn expected(case: &Case, answer: &Answer, lent: &ExplainLent) -> Answer {
    let is_path_cut = lent.path < case.path_len.min(MIN_PATH_BYTES);
    let is_result_cut = lent.slot.length < EXPLAIN_RESULT_BYTES && case.scratch_len >= MIN_SCRATCH_WORDS;
    let refused = |number| Answer { number, ..Answer::default() };
    match answer.number {
        1 | 2 => answer.clone(),
        _ if is_path_cut || is_result_cut => refused(3),
        3 => answer.clone(),
        _ if lent.marks < MARKS_BYTES => refused(35),
        _ => answer.clone(),
    }
}

fn one(case: &Case, answer: &Answer, message: &[u8], lent: &ExplainLent) -> Result<(), String> {
    let expected = expected(case, answer, lent);
    let message = if expected == *answer { message } else { &[] };
    let marks = Entry::Check.marks(case, &expected);
    let told = || format!("{}, marks {marks:?}, message {:?}", line(&expected), String::from_utf8_lossy(message));
    in_arena(lent, told, |arena| arena.explain(case, lent, (&expected, &marks, message)))
}
