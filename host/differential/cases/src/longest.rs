//! The longest paths that a call can be made to write: a full label, conditions as deep as they may be, and long keys as deep as the sheet has room.

use crate::case::{Case, Expect};
use crate::generate::build::{all, exists, holder, object, rule, schema, text};
use crate::limits::{MAX_LABEL_BYTES, MAX_SHEET_BYTES, MAX_TEXT_BYTES};
use model::trees::{Sheet, Value};
use model::{write_rule, write_schema};

/// Conditions above the one that holds the keys; they may nest 32 deep.
const CONDITIONS: usize = 31;

/// A rule and a template that fill their sheets, each with a defect at the innermost value.
pub fn longest() -> Vec<Case> {
    let in_rule = |value| rule((0..CONDITIONS).fold(exists(value), |inner, _| all(vec![inner])));
    let label = vec![b'l'; MAX_LABEL_BYTES];
    let schema = write_schema(&schema(holder(false, Vec::new()), None));
    let sheets = [fullest(in_rule), fullest(Sheet::Template)];
    sheets.into_iter().map(|sheet| Case::new(1, 2, &label, schema.clone(), sheet).expecting(Expect::Detail(18, 12))).collect()
}

/// The largest sheet that nested keys make: all of full length but the outermost.
fn fullest(around: impl Fn(Value) -> Sheet) -> Vec<u8> {
    let sheet = |full: usize, first: usize| write_rule(&around(keys(full, first)));
    let fits = |sheet: &Vec<u8>| sheet.len() <= MAX_SHEET_BYTES;
    let full = (0..).take_while(|&full| fits(&sheet(full, 0))).last().unwrap_or(0);
    let all = (0..=MAX_TEXT_BYTES).rev().map(|first| sheet(full, first));
    all.into_iter().find(fits).expect("the shortest first key fits")
}

fn keys(full: usize, first: usize) -> Value {
    let member = |inner, length: usize| object(vec![("k".repeat(length), inner)]);
    let inner = (0..full).fold(text("$"), |inner, _| member(inner, MAX_TEXT_BYTES));
    member(inner, first)
}
