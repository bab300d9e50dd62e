//! Keys: one path of the record under a reader, held by library, model and Rust.

pub mod run;
pub mod short;
pub mod vectors;
pub mod widened;

use crate::library;
use crate::library::lent::Extent;
use crate::oracle::{self, Schemas};
use crate::readings::answer::line;
use crate::readings::refusals::key_refusal;
use cases::case::Expect;
use cases::keys::{candidates, KeyCase};
use model::{check_key, decode_schema, write_schema, Answer};
use std::panic::catch_unwind;

/// The model's answer, compared with the library's and the Rust's. An error says how they differ.
pub fn hold(case: &KeyCase, extent: Extent) -> Result<Answer, String> {
    let answer = catch_unwind(|| check_key(&case.call())).map_err(|_| "the model panics".to_owned())?;
    if !case.expect.allows(answer.number, answer.detail) {
        return Err(format!("the case was made for {:?}, the model answers {}", case.expect, line(&answer)));
    }
    library::keys::hold(case, &answer, extent)?;
    let refused = key_refusal(case);
    if refused != if answer.number > 5 { 0 } else { answer.number } {
        return Err(format!("the model answers {}, the second reading of the refusals {refused}", line(&answer)));
    }
    shape(&answer)?;
    if refused == 0 {
        let schema = decode_schema(&case.schema).ok_or("the schema sheet was let in and cannot be read")?;
        if write_schema(&schema) != case.schema {
            return Err("the schema sheet was read as something that is written otherwise".to_owned());
        }
        let path = std::str::from_utf8(&case.path).map_err(|_| "a path that is not UTF-8 was accepted".to_owned())?;
        same(&answer, &Schemas::new(&schema), case.semantics, case.reader, path)?;
    }
    Ok(answer)
}

/// What holds of every answer: a refusal is its number alone, a key that can be read has one check passed, and a defect is 18 with its detail.
fn shape(answer: &Answer) -> Result<(), String> {
    let bare = match answer.number {
        0 => Answer { passed: 1, ..Answer::default() },
        1..=4 => Answer { number: answer.number, ..Answer::default() },
        18 => Answer { number: 18, detail: answer.detail, ..Answer::default() },
        _ => return Err(format!("an answer that no key gets: {}", line(answer))),
    };
    let has_detail = (answer.number == 18) == matches!(answer.detail, 1..=10 | 13);
    if *answer == bare && has_detail {
        Ok(())
    } else {
        Err(format!("an answer that is reported differently: {}", line(answer)))
    }
}

/// The Rust has the same detail, or reads the path as well.
fn same(answer: &Answer, schemas: &Schemas, semantics: u64, reader: u64, path: &str) -> Result<(), String> {
    let detail = oracle::ask_key(schemas, semantics, reader, path)?;
    if detail == answer.detail {
        Ok(())
    } else {
        Err(format!("the model answers {}, the Rust detail {detail}", line(answer)))
    }
}

/// Prints a disagreement as a small case, and answers with what is wrong.
pub fn report(case: &KeyCase, trouble: &str, which: &str) -> String {
    println!("{which}: {trouble}");
    let small = shrink(case);
    if let Err(trouble) = hold(&small, Extent::All) {
        println!("made smaller: {trouble}");
    }
    let KeyCase { semantics, reader, path, schema, result_len, .. } = &small;
    println!("semantics {semantics}, reader {reader}, a result of {result_len} bytes, path {:?}, schema:", String::from_utf8_lossy(path));
    println!("{}", String::from_utf8_lossy(schema));
    "the library, the model and the Rust do not all agree".to_owned()
}

/// The smallest case that leaving out parts leads to. What was expected of the first case says nothing about smaller ones.
fn shrink(case: &KeyCase) -> KeyCase {
    let fails = |case: &KeyCase| hold(case, Extent::All).is_err();
    let free = case.clone().expecting(Expect::Anything);
    let mut small = if fails(&free) { free } else { return case.clone() };
    while let Some(smaller) = candidates(&small).into_iter().find(fails) {
        small = smaller;
    }
    small
}
