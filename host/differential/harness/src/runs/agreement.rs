//! Asks all three about one case: the model answers, the library must answer the same, and the Rust must say the same of what it sees.

use crate::library;
use crate::library::entry::Entry;
use crate::library::lent::Extent;
use crate::oracle::verdict::{Defect, Quoted, Verdict};
use crate::oracle::{self, Frame, Schemas};
use crate::readings::answer::line;
use crate::readings::marks;
use crate::readings::nodes::{entries, node, Node};
use crate::readings::plan::plan;
use crate::readings::refusals::refusal;
use cases::case::Case;
use cases::limits::REFUSALS;
use model::checks::depth;
use model::trees::{Data, Operator, Schema, Sheet, Value};
use model::Answer;
use std::panic::catch_unwind;

/// How a case went where all agree.
#[derive(Clone, Debug, PartialEq, Eq)]
pub enum Held {
    /// One of the refusals, which come before the Rust is asked.
    Refused(u32),
    /// Not run on the Rust, since it holds a number that stays out of the runs.
    KeptOut,
    Agreed(Answer),
}

/// The longest path that a call can write.
const MAX_PATH_BYTES: usize = 31_122;

/// The model's answer, compared with the library's and the Rust's. An error says how they differ.
pub fn hold(case: &Case) -> Result<Held, String> {
    hold_with(case, Extent::Some)
}

/// As `hold`, with more or fewer calls of the library.
pub fn hold_with(case: &Case, extent: Extent) -> Result<Held, String> {
    let (answer, message) = catch_unwind(|| model::explain(&case.call())).map_err(|_| "the model panics".to_owned())?;
    if !case.expect.allows(answer.number, answer.detail) {
        return Err(format!("the case was made for {:?}, the model answers {}", case.expect, line(&answer)));
    }
    library::checks::hold(case, &answer, extent)?;
    library::messages::hold(case, &answer, message.as_deref(), extent)?;
    let refused = refusal(case);
    if refused != if REFUSALS.contains(&answer.number) { answer.number } else { 0 } {
        return Err(format!("the model answers {}, the second reading of the refusals {refused}", line(&answer)));
    }
    if refused > 0 {
        let bare = Answer { number: answer.number, ..Answer::default() };
        return if answer == bare && message.is_none() {
            Ok(Held::Refused(answer.number))
        } else {
            Err(format!("a refusal with more than its number: {}", line(&answer)))
        };
    }
    let (schema, sheet) = trees(case)?;
    let (marks, others) = (Entry::Check.marks(case, &answer), marks::marks(&case.rule));
    if answer.number == 0 && marks != others {
        return Err(format!("the model has the marks {marks:?}, the second reading {others:?}"));
    }
    shape(&sheet, &answer, case.semantics > 1)?;
    if oracle::is_kept_out(&sheet) {
        return Ok(Held::KeptOut);
    }
    let label = std::str::from_utf8(&case.label).map_err(|_| "a label that is not UTF-8 was accepted".to_owned())?;
    let frame = Frame { kind: case.kind, semantics: case.semantics, label, table: &case.table };
    let verdict = oracle::ask(frame, &Schemas::new(&schema), &sheet)?;
    same(&answer, message.as_deref(), &verdict, &sheet)?;
    Ok(Held::Agreed(answer))
}

/// The Rust's message of the case's defect; none where the case has none or is not run on the Rust.
pub fn rust_message(case: &Case) -> Option<String> {
    if REFUSALS.contains(&model::check(&case.call()).number) {
        return None;
    }
    let (schema, sheet) = trees(case).ok().filter(|(_, sheet)| !oracle::is_kept_out(sheet))?;
    let frame = Frame { kind: case.kind, semantics: case.semantics, label: std::str::from_utf8(&case.label).ok()?, table: &case.table };
    match oracle::ask(frame, &Schemas::new(&schema), &sheet).ok()? {
        Verdict::Accepted => None,
        Verdict::Defect(defect) => Some(defect.message),
    }
}

/// Both trees. A sheet that is read must be the writing of what was read.
fn trees(case: &Case) -> Result<(Schema, Sheet), String> {
    let schema = model::decode_schema(&case.schema).ok_or("the schema sheet was let in and cannot be read")?;
    let sheet = model::decode_rule(&case.rule).ok_or("the rule sheet was let in and cannot be read")?;
    if model::write_schema(&schema) != case.schema {
        return Err("the schema sheet was read as something that is written otherwise".to_owned());
    }
    if model::write_rule(&sheet) != case.rule {
        return Err("the rule sheet was read as something that is written otherwise".to_owned());
    }
    Ok((schema, sheet))
}

/// What holds of every answer, whatever the Rust says.
fn shape(sheet: &Sheet, answer: &Answer, service: bool) -> Result<(), String> {
    let plan = plan(sheet, service);
    let passed = plan.iter().position(|check| *check == (answer.number, answer.place));
    let passed = if answer.number == 0 { Some(plan.len()) } else { passed };
    if passed != Some(answer.passed as usize) {
        return Err(format!("a passed count that the check list does not give: {}", line(answer)));
    }
    if plan.len() > 3 * entries(sheet) as usize + 3 {
        return Err(format!("{} checks, more than three for each entry and three", plan.len()));
    }
    let bare = Answer { passed: answer.passed, ..Answer::default() };
    if answer.number == 0 && *answer != bare {
        return Err(format!("an acceptance with more than its passed count: {}", line(answer)));
    }
    if answer.path.len() > MAX_PATH_BYTES {
        return Err(format!("a path of {} bytes", answer.path.len()));
    }
    Ok(())
}

/// Acceptance, number, family, detail, path and message are the same, and what the Rust quotes is at the places.
pub fn same(answer: &Answer, message: Option<&str>, verdict: &Verdict, sheet: &Sheet) -> Result<(), String> {
    let differ = || Err(format!("the model answers {}, the Rust {verdict:?}", line(answer)));
    let Verdict::Defect(defect) = verdict else {
        return if answer.number == 0 && message.is_none() { Ok(()) } else { differ() };
    };
    let told = (answer.number, answer.family, answer.detail, answer.path.as_slice());
    if told != (defect.number, defect.family, defect.detail, defect.path.as_bytes()) {
        return differ();
    }
    if message != Some(&defect.message) {
        return Err(format!("the model's message is {message:?}, the Rust's {:?}", defect.message));
    }
    if !is_quoted(defect, answer.place, sheet) {
        return Err(format!("place {} is not what the Rust speaks of: {defect:?}", answer.place));
    }
    if !is_over(defect.over.as_deref(), answer.over_place, sheet) {
        return Err(format!("over place {} is not what the Rust speaks of: {defect:?}", answer.over_place));
    }
    Ok(())
}

/// Whether the entry at the place is the one that the Rust quotes.
fn is_quoted(defect: &Defect, place: u32, sheet: &Sheet) -> bool {
    match (&defect.quoted, node(sheet, place)) {
        (Quoted::Nothing, found) => is_unquoted(defect.number, place, found),
        (Quoted::Text(text), Some(Node::Value(value))) => matches!(&value.data, Data::String(found) if found == text),
        (Quoted::Json(json), Some(Node::Value(value))) => oracle::json(value) == *json,
        (Quoted::Operator(key), Some(Node::Condition(condition))) => service_key(&condition.operator) == Some(key),
        (Quoted::Depth(found), Some(Node::Condition(condition))) => place == 2 && depth(condition) == *found,
        (Quoted::Side, Some(Node::Value(value))) => matches!(value.data, Data::Array(_) | Data::Object(_)),
        (Quoted::Bind(_) | Quoted::Over(_), Some(Node::Condition(condition))) => is_quantifier(&defect.quoted, &condition.operator),
        _ => false,
    }
}

/// Blank names and messages belong to the first entry; an empty `all` or `any` to itself.
fn is_unquoted(number: u32, place: u32, found: Option<Node<'_>>) -> bool {
    match found {
        None => matches!(number, 11 | 12) && place == 1,
        Some(Node::Condition(condition)) => {
            number == 16 && matches!(&condition.operator, Operator::All(children) | Operator::Any(children) if children.is_empty())
        }
        Some(Node::Value(_)) => false,
    }
}

fn is_quantifier(quoted: &Quoted, operator: &Operator) -> bool {
    let Operator::Quantifier { bind, over, .. } = operator else {
        return false;
    };
    match quoted {
        Quoted::Bind(text) => bind == text,
        Quoted::Over(text) => describe(over) == *text,
        _ => false,
    }
}

fn is_over(over: Option<&str>, place: u32, sheet: &Sheet) -> bool {
    match (over, node(sheet, place)) {
        (None, _) => place == 0,
        (Some(text), Some(Node::Value(value))) => describe(value) == text,
        (Some(_), _) => false,
    }
}

/// A string as it is, any other value as compact JSON.
fn describe(value: &Value) -> String {
    match &value.data {
        Data::String(text) => text.clone(),
        _ => oracle::json(value),
    }
}

fn service_key(operator: &Operator) -> Option<&'static str> {
    match operator {
        Operator::Compare(..) => Some("compare"),
        Operator::Truthy(_) => Some("truthy"),
        Operator::Quantifier { operator: 20, .. } => Some("for_all"),
        Operator::Quantifier { .. } => Some("for_any"),
        _ => None,
    }
}
