//! Name tables: checks that are lent one, and the loading of one, held by library, model and Rust.

pub mod run;
pub mod vectors;

use crate::library;
use crate::readings::refusals::load_refusal;
use cases::shrink::shorter;
use cases::tables::LoadCase;

/// The number that library, model and second reading agree on. An error says how they differ.
pub fn hold_load(case: &LoadCase) -> Result<u32, String> {
    let (number, buffer) = case.answer();
    if case.expect.is_some_and(|expected| expected != number) {
        return Err(format!("the case was made for {:?}, the model answers {number}", case.expect));
    }
    let written = if number == 0 { case.table.as_slice() } else { &[] };
    if !buffer.starts_with(written) || buffer[written.len()..].iter().any(|byte| *byte != 0) {
        return Err(format!("the model answers {number} and leaves other bytes in the buffer than the table's"));
    }
    library::tables::hold(case, number)?;
    let refused = load_refusal(&case.table, case.buffer_len);
    if refused == number {
        Ok(number)
    } else {
        Err(format!("the model answers {number}, the second reading of the refusals {refused}"))
    }
}

/// Prints a disagreement as a small case, and answers with what is wrong.
pub fn report_load(case: &LoadCase, trouble: &str, which: &str) -> String {
    println!("{which}: {trouble}");
    let fails = |case: &LoadCase| hold_load(case).is_err();
    let mut small = LoadCase { expect: None, ..case.clone() };
    if !fails(&small) {
        small = case.clone();
    }
    let candidates = |case: &LoadCase| shorter(&case.table).into_iter().map(|table| LoadCase { table, ..case.clone() }).collect::<Vec<_>>();
    while let Some(smaller) = candidates(&small).into_iter().find(fails) {
        small = smaller;
    }
    if let Err(trouble) = hold_load(&small) {
        println!("made smaller: {trouble}");
    }
    println!("a buffer of {} bytes, the table {:?}", small.buffer_len, String::from_utf8_lossy(&small.table));
    "the library, the model and the second reading do not all agree".to_owned()
}
