//! `messages-vectors`: a fixed list of defects and their messages that a program can replay without model and Rust.

use super::rows::Rows;
use crate::library::lent::Extent;
use crate::runs::agreement::{hold_with, Held};
use crate::runs::compare::report;
use cases::case::Case;
use cases::limits::{MIN_PATH_BYTES, MIN_SCRATCH_WORDS};
use cases::messages::edges::edges;
use cases::messages::generate;
use cases::random::Random;
use std::collections::BTreeSet;

/// How many cases the list has besides the known ones.
const GENERATED: usize = 1_000;

/// No generated case of the list has a larger sheet than this.
const MAX_BYTES: usize = 400;

/// Writes the list; an error before that leaves the file as it was.
pub fn vectors(file: &str, seed: u64) -> Result<(), String> {
    let (mut seen, mut bytes, mut rows) = (BTreeSet::new(), Vec::new(), Rows::default());
    let known: Vec<Case> = edges().into_iter().map(|(case, _)| case).collect();
    let most = known.len() + GENERATED;
    let generated = (0..).map(|number| generate::case(&mut Random::of_case(seed, number)).1);
    for case in known.into_iter().chain(generated.filter(is_listed)) {
        if seen.len() == most {
            break;
        }
        let held = hold_with(&case, Extent::Some).map_err(|trouble| report(&case, &trouble, "a case for the list"))?;
        let Held::Agreed(answer) = held else { continue };
        let Some(message) = model::explain(&case.call()).1 else { continue };
        let written = written(&case, answer.number, &message);
        if seen.insert(written.clone()) {
            bytes.extend(written);
            rows.count(case.kind, &answer, &message);
        }
    }
    if let [first, ..] = rows.missing().as_slice() {
        return Err(format!("no case of the list has the sentence {first:?}"));
    }
    let bytes = [head(most, seed).into_bytes(), bytes].concat();
    std::fs::write(file, bytes).map_err(|error| format!("{file} cannot be written: {error}"))?;
    println!("{rows}\n{most} defects written to {file}");
    Ok(())
}

/// The list says nothing of labels and buffers, and holds small sheets.
fn is_listed(case: &Case) -> bool {
    let is_wide = case.path_len >= MIN_PATH_BYTES && case.scratch_len >= MIN_SCRATCH_WORDS;
    is_wide && case.rule.len() <= MAX_BYTES && case.schema.len() <= MAX_BYTES
}

fn head(cases: usize, seed: u64) -> String {
    format!(
        "# {cases} rules and templates with a defect and its message, written by host/differential/run SOURCES messages-vectors --out FILE --seed {seed};\n\
         # the same seed gives the same bytes. Each message is the Rust's own, with which the model agrees byte for byte. The library answers the same\n\
         # through rulecheck_explain.\n\
         # A case is a line with numbers parted by commas: kind, semantics, the byte counts of label, table, schema sheet, rule sheet and message,\n\
         # and the answer's number. Then come label, table, both sheets and the message, and a line end. Lines that begin with # stand here only,\n\
         # before the first case.\n"
    )
}

fn written(case: &Case, number: u32, message: &str) -> Vec<u8> {
    let Case { kind, semantics, label, table, schema, rule, .. } = case;
    let parts = [label, table, schema, rule].map(|part| part.len() as u64);
    let numbers = [*kind, *semantics].into_iter().chain(parts).chain([message.len() as u64, number.into()]);
    let line: Vec<String> = numbers.map(|number| number.to_string()).collect();
    [line.join(",").as_bytes(), b"\n", label, table, schema, rule, message.as_bytes(), b"\n"].concat()
}
