//! Pairs of schemas: whether the second is a widening of the first, by library and model, and compared with what the Rust answers for rules over both.

pub mod run;
pub mod vectors;

use crate::library;
use crate::library::lent::Extent;
use crate::readings::refusals::widens_refusal;
use cases::widens::{candidates, Expect, WidensCase};
use model::{decode_schema, is_widening, only_marks_opened, widens, write_schema};
use std::panic::catch_unwind;

/// The model's numbers, compared with the library's. An error says how they differ.
pub fn hold(case: &WidensCase, extent: Extent) -> Result<[u32; 7], String> {
    let WidensCase { first, second, result_len, expect } = case;
    let numbers = catch_unwind(|| widens(first, second, *result_len)).map_err(|_| "the model panics".to_owned())?;
    if !expect.allows(&numbers) {
        return Err(format!("the pair was made for {expect:?}, the model answers {numbers:?}"));
    }
    library::widens::hold(case, &numbers, extent)?;
    let refused = widens_refusal(case);
    if refused != if numbers[0] == 0 { [0, 0] } else { [numbers[0], numbers[1]] } {
        return Err(format!("the model answers {numbers:?}, the second reading of the refusals {refused:?}"));
    }
    if numbers[0] == 0 {
        relation(first, second, &numbers)?;
    }
    Ok(numbers)
}

/// The answer is that of the relation, which knows of no breach; and a sheet that is read is written so.
fn relation(first: &[u8], second: &[u8], numbers: &[u32; 7]) -> Result<(), String> {
    let read = |sheet: &[u8]| decode_schema(sheet).filter(|schema| write_schema(schema) == sheet);
    let (one, two) = read(first).zip(read(second)).ok_or("a sheet was read as something that is written otherwise")?;
    let answer = match (is_widening(&one, &two), only_marks_opened(&one, &two)) {
        (true, true) => 1,
        (true, false) => 2,
        (false, _) => 3,
    };
    if answer == numbers[1] {
        Ok(())
    } else {
        Err(format!("the breaches answer {}, the relation {answer}", numbers[1]))
    }
}

/// Prints a disagreement as a small pair, and answers with what is wrong.
pub fn report(case: &WidensCase, trouble: &str, which: &str) -> String {
    println!("{which}: {trouble}");
    let small = shrink(case);
    if let Err(trouble) = hold(&small, Extent::All) {
        println!("made smaller: {trouble}");
    }
    println!("a result of {} bytes, first and second sheet:", small.result_len);
    println!("{}\n{}", String::from_utf8_lossy(&small.first), String::from_utf8_lossy(&small.second));
    "the library and the model do not agree".to_owned()
}

/// The smallest pair that leaving out parts leads to. What was expected of the first pair says nothing about smaller ones.
fn shrink(case: &WidensCase) -> WidensCase {
    let fails = |case: &WidensCase| hold(case, Extent::All).is_err();
    let free = case.clone().expecting(Expect::Anything);
    let mut small = if fails(&free) { free } else { return case.clone() };
    while let Some(smaller) = candidates(&small).into_iter().find(fails) {
        small = smaller;
    }
    small
}
