//! Openings: the set of library and model, compared with what the Rust accepts under every set of openings.

pub mod run;
pub mod sets;
pub mod vectors;

use crate::library;
use crate::library::lent::Extent;
use crate::readings::refusals::openings_refusal;
use cases::openings::{candidates, Expect, Opened, OpeningsCase};
use model::openings;
use sets::Asked;
use std::panic::catch_unwind;

/// The model's answer, compared with the library's and with what the Rust accepts; and what the Rust was asked. An error says how they differ.
pub fn hold(case: &OpeningsCase, extent: Extent) -> Result<(Opened, Asked), String> {
    let opened = catch_unwind(|| openings(&case.call())).map_err(|_| "the model panics".to_owned())?;
    if !case.expect.allows(&opened) {
        return Err(format!("the case was made for {:?}, the model answers {opened:?}", case.expect));
    }
    library::openings::hold(case, &opened, extent)?;
    let (numbers, set) = &opened;
    let refused = openings_refusal(case);
    if refused != numbers[0] {
        return Err(format!("the model answers {}, the second reading of the refusals {refused}", numbers[0]));
    }
    if numbers[2] as usize != set.len() || !set.is_sorted_by(|one, next| one < next) {
        return Err(format!("not a set that rises: {opened:?}"));
    }
    let asked = match numbers {
        [0, is_set, _] => sets::hold(case, (*is_set == 1).then_some(set.as_slice()))?,
        [_, 0, 0] => Asked::Nothing,
        _ => return Err(format!("a refusal with more than its number: {numbers:?}")),
    };
    Ok((opened, asked))
}

/// Prints a disagreement as a small case, and answers with what is wrong.
pub fn report(case: &OpeningsCase, trouble: &str, which: &str) -> String {
    println!("{which}: {trouble}");
    let fails = |case: &OpeningsCase| hold(case, Extent::All).is_err();
    let mut small = case.clone().expecting(Expect::Anything);
    if !fails(&small) {
        small = case.clone();
    }
    while let Some(smaller) = candidates(&small).into_iter().find(fails) {
        small = smaller;
    }
    if let Err(trouble) = hold(&small, Extent::All) {
        println!("made smaller: {trouble}");
    }
    small.print();
    "the library, the model and the Rust do not all agree".to_owned()
}
