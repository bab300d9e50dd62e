//! The two calls.

use super::error::JsonError;
use super::laid;
use crate::limits::{JSON_RESULT_BYTES, MAX_SHEET_BYTES};
use crate::raw;
use crate::refusal::Refusal;
use crate::sheets::RuleSheet;

/// How many bytes the JSON of a rule has at most for each of its sheet: a control byte becomes `\u00xx`.
const GROWTH: usize = 6;

/// The numbers of a result: the answer, and the length of what was made.
fn answer(result: &[u8; JSON_RESULT_BYTES]) -> (u32, usize) {
    let [number, length] = [0, 1].map(|index| raw::field(result, index));
    (number, usize::try_from(length).unwrap_or(usize::MAX))
}

const fn unknown(number: u32) -> Refusal {
    Refusal::Unknown([number, 0, 0, 0, 0, 0, 0])
}

pub fn rule_from_json(text: &[u8]) -> Result<RuleSheet, JsonError> {
    let mut sheet = vec![0; MAX_SHEET_BYTES];
    let mut result = [0; JSON_RESULT_BYTES];
    raw::from_json(text, &mut sheet, &mut result);
    let refused = |refusal, fault| Err(JsonError::new(refusal, fault));
    match answer(&result) {
        (0, length) if length <= MAX_SHEET_BYTES => {
            sheet.truncate(length);
            Ok(RuleSheet::new(sheet))
        }
        (31, _) => refused(Refusal::JsonForm, laid(text).err()),
        (32, _) => {
            let over = laid(text).ok().and_then(|laid| laid.over);
            refused(Refusal::SheetLimit, over)
        }
        (number, _) => refused(unknown(number), None),
    }
}

pub fn rule_to_json(sheet: &[u8]) -> Result<String, Refusal> {
    let room = sheet.len().min(MAX_SHEET_BYTES).saturating_mul(GROWTH);
    let mut text = vec![0; room];
    let mut result = [0; JSON_RESULT_BYTES];
    raw::to_json(sheet, &mut text, &mut result);
    match answer(&result) {
        (0, length) if length <= room => {
            text.truncate(length);
            String::from_utf8(text).map_err(|_| unknown(0))
        }
        (5, _) => Err(Refusal::RuleSheet),
        (33, _) => Err(Refusal::Output),
        (number, _) => Err(unknown(number)),
    }
}
