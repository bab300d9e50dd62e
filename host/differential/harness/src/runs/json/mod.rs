//! Rules as JSON: a sheet made of a text, and a text made of a sheet, by library, model, second readings and serde_json on the Rust's own types.

pub mod run;
pub mod vectors;

use crate::library;
use crate::library::lent::Extent;
use crate::oracle::json::{read, respelled, spelled, written, Reading};
use crate::oracle::sheet::of_rule;
use crate::readings::refusals::is_rule;
use cases::json::{shorter, Expect, TextCase};
use model::rule_json::rule_in;
use model::trees::{Rule, Sheet};
use model::{decode_rule, from_json, to_json, write_rule, Converted};
use std::panic::catch_unwind;

/// How a text went where all agree.
#[derive(Clone, Debug, PartialEq, Eq)]
pub struct Held {
    pub answer: Converted,
    /// The habit of serde_json for which it was not asked.
    pub kept_out: Option<&'static str>,
}

/// What the model makes of a text, compared with library, serde_json and second readings; and what it makes of the sheet in turn. An error says how they differ.
pub fn hold(case: &TextCase, extent: Extent) -> Result<Held, String> {
    let TextCase { text, expect } = case;
    let answer = catch_unwind(|| from_json(text, usize::MAX)).map_err(|_| "the model panics".to_owned())?;
    if !expect.allows(&answer) {
        return Err(format!("the text was made for {expect:?}, the model answers {}", told(&answer)));
    }
    library::json::hold_text(text, |room| from_json(text, room), extent)?;
    let kept_out = second(text, &answer)?;
    if let Ok(sheet) = &answer {
        let json = hold_sheet(sheet, extent)?.map_err(|number| format!("a sheet that was made is refused by {number}"))?;
        let back = from_json(&json, sheet.len());
        if back.as_ref() != Ok(sheet) {
            return Err(format!("the sheet as JSON is read back as {}", told(&back)));
        }
        library::json::hold_text(&json, |room| from_json(&json, room), extent)?;
    }
    Ok(Held { answer, kept_out })
}

/// The answer is that of serde_json with the second writer and the second reading of sheets; else the habit for which the text is kept out.
fn second(text: &[u8], answer: &Converted) -> Result<Option<&'static str>, String> {
    let rule = rule_in(text);
    let differ = |found: &str| Err(format!("the model answers {}, {found}", told(answer)));
    match (read(text)?, &rule) {
        (Reading::KeptOut(habit), _) => return Ok(Some(habit)),
        (Reading::None, None) => {}
        (Reading::Rule(found), Some(rule)) => same(&found, rule)?,
        (Reading::None, Some(_)) => return differ("serde_json reads no rule"),
        (Reading::Rule(found), None) => return differ(&format!("serde_json reads {found:?}")),
    }
    let expected = match &rule {
        None => Err(31),
        Some(rule) => Some(write_rule(&Sheet::Rule(rule.clone()))).filter(|sheet| is_rule(sheet)).ok_or(32),
    };
    if *answer == expected {
        Ok(None)
    } else {
        differ(&format!("the second reading {}", told(&expected)))
    }
}

/// The same rule in the Rust's types, and the same order of members, which their equality does not look at.
fn same(found: &entity_core::RuleDefinition, rule: &Rule) -> Result<(), String> {
    let expected = spelled(rule);
    if *found != expected || of_rule(found) != of_rule(&expected) {
        return Err(format!("serde_json reads {found:?}, the model {expected:?}"));
    }
    let is_spelled_so = respelled(rule) == *rule;
    if is_spelled_so && of_rule(found) != write_rule(&Sheet::Rule(rule.clone())) {
        return Err("the model's sheet is not that of what serde_json reads".to_owned());
    }
    Ok(())
}

/// What the model makes of a sheet, compared with library and serde_json. An error says how they differ.
pub fn hold_sheet(sheet: &[u8], extent: Extent) -> Result<Converted, String> {
    let answer = catch_unwind(|| to_json(sheet, usize::MAX)).map_err(|_| "the model panics".to_owned())?;
    library::json::hold_sheet(sheet, |room| to_json(sheet, room), extent)?;
    let expected = match decode_rule(sheet).filter(|_| is_rule(sheet)) {
        Some(Sheet::Rule(rule)) => Ok(written(&rule).into_bytes()),
        _ => Err(5),
    };
    if answer != expected {
        return Err(format!("the model writes {}, serde_json {}", told(&answer), told(&expected)));
    }
    Ok(answer)
}

/// What is made as text, or the number.
fn told(answer: &Converted) -> String {
    match answer {
        Ok(made) => format!("{:?}", String::from_utf8_lossy(made)),
        Err(number) => number.to_string(),
    }
}

/// Prints a disagreement as a small text, and answers with what is wrong.
pub fn report(case: &TextCase, trouble: &str, which: &str) -> String {
    println!("{which}: {trouble}");
    let anything = |text: Vec<u8>| TextCase::new(text, Expect::Anything);
    let small = shrink(case.text.clone(), |text| hold(&anything(text.to_vec()), Extent::All).is_err());
    if let Err(trouble) = hold(&anything(small.clone()), Extent::All) {
        println!("made smaller: {trouble}");
    }
    println!("the text:\n{}", small.escape_ascii());
    "library, model and serde_json do not agree".to_owned()
}

/// The same for a sheet.
pub fn report_sheet(sheet: &[u8], trouble: &str, which: &str) -> String {
    println!("{which}: {trouble}");
    let small = shrink(sheet.to_vec(), |sheet| hold_sheet(sheet, Extent::All).is_err());
    if let Err(trouble) = hold_sheet(&small, Extent::All) {
        println!("made smaller: {trouble}");
    }
    println!("the sheet:\n{}", small.escape_ascii());
    "library, model and serde_json do not agree".to_owned()
}

/// The smallest bytes that leaving out parts leads to.
fn shrink(bytes: Vec<u8>, fails: impl Fn(&[u8]) -> bool) -> Vec<u8> {
    let mut small = bytes;
    if !fails(&small) {
        return small;
    }
    while let Some(smaller) = shorter(&small).into_iter().find(|smaller| fails(smaller)) {
        small = smaller;
    }
    small
}
