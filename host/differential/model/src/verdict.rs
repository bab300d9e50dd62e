//! The check of a rule or template: the refusals, then the check list.

use super::call::{Answer, Call, MAX_LABEL_BYTES, PATH_BYTES, SCRATCH_WORDS};
use super::checks::{self, Binders, Check, Question};
use super::settings::Setting;
use super::sheets::{decode_rule, decode_schema};
use super::table::Table;
use super::trees::{Field, Schema, Sheet};
use super::walks::{self, Fault};
use super::{messages, paths, text};

/// Refusals 1, 2, 3, 37, 38, 4 and 5 in this order, then the check list.
pub fn check(call: &Call) -> Answer {
    explain(call).0
}

/// The answer, and the message of its defect; none under acceptance or a refusal.
pub fn explain(call: &Call) -> (Answer, Option<String>) {
    let refused = |number| {
        let answer = Answer {
            number,
            ..Answer::default()
        };
        (answer, None)
    };
    let Some(setting) = Setting::new(call.kind, call.semantics) else {
        return refused(1);
    };
    if call.label.len() > MAX_LABEL_BYTES || !text::is_utf8(call.label) {
        return refused(2);
    }
    if call.path_len < PATH_BYTES || call.scratch_len < SCRATCH_WORDS {
        return refused(3);
    }
    let Some(table) = Table::lent(call.table) else {
        return refused(37);
    };
    if !table.is_sound() {
        return refused(38);
    }
    let Some(schema) = decode_schema(call.schema) else {
        return refused(4);
    };
    let Some(rule) = decode_rule(call.rule) else {
        return refused(5);
    };
    judge(&setting.under(&table), call, &schema, &rule)
}

/// The first failing check, or acceptance.
fn judge(
    setting: &Setting,
    call: &Call,
    schema: &Schema,
    rule: &Sheet,
) -> (Answer, Option<String>) {
    let list = checks::checks(rule, setting);
    for (passed, check) in list.iter().enumerate() {
        if let Err(fault) = outcome(check, setting, schema) {
            let (family, over_place) = family(check, setting);
            let answer = Answer {
                number: check.number,
                family,
                detail: fault.detail,
                place: check.place,
                over_place,
                passed: passed as u32,
                path: paths::path(call.label, rule, check.number, check.place),
            };
            let message = messages::message(call.kind, rule, check.number, check.place, &fault);
            return (answer, Some(message));
        }
    }
    let accepted = Answer {
        passed: list.len() as u32,
        ..Answer::default()
    };
    (accepted, None)
}

/// Whether one check passes against a schema; else the fault.
fn outcome<'t>(check: &Check<'t>, setting: &Setting, schema: &'t Schema) -> Result<(), Fault<'t>> {
    match check.question {
        Question::Settled(answer) => answer.map_err(Fault::settled),
        Question::Reference(text) => {
            walks::validate_reference(text, setting, schema, &environment(&check.binders, schema))
        }
        Question::Collection(over) => {
            walks::collection_element(over, schema, &environment(&check.binders, schema))
                .map(|_| ())
        }
    }
}

/// The enclosing binders with their elements, outermost first.
fn environment<'t>(binders: &Binders<'t>, schema: &'t Schema) -> Vec<(&'t str, Option<&'t Field>)> {
    let Some(binder) = binders else {
        return Vec::new();
    };
    let mut environment = environment(&binder.outer, schema);
    let element = walks::collection_element(binder.over, schema, &environment);
    environment.push((
        binder.name,
        element.expect("a collection is checked before the body under it"),
    ));
    environment
}

/// The family of a failing check, and the place of `in` where a quantifier's body changes it. A literal's check is in no body.
fn family(check: &Check, setting: &Setting) -> (u32, u32) {
    let family = match check.number {
        13 => 4,
        15 => 3,
        17 => 5,
        18 if !setting.rule_kind => 2,
        21 => 6,
        22 => 7,
        _ => 1,
    };
    match &check.binders {
        Some(binder) if family == 1 => (8, binder.over.entry),
        _ => (family, 0),
    }
}
