//! `marks-vectors`: a fixed list of rules and their marks that a program can replay without model and Rust.

use crate::library::entry::Entry;
use crate::library::lent::Extent;
use crate::runs::agreement::hold_with;
use crate::runs::compare::report;
use cases::case::Case;
use cases::limits::{MIN_PATH_BYTES, MIN_SCRATCH_WORDS};
use cases::marks::edges::edges;
use cases::marks::generate;
use cases::random::Random;
use model::check;
use std::collections::BTreeSet;

/// How many rules the list has besides the known ones.
const GENERATED: usize = 1_000;

/// No generated rule of the list has a larger sheet than this.
const MAX_BYTES: usize = 300;

/// Writes the list; an error before that leaves the file as it was.
pub fn vectors(file: &str, seed: u64) -> Result<(), String> {
    let (mut seen, mut bytes) = (BTreeSet::new(), Vec::new());
    let known: Vec<Case> = edges().into_iter().map(|(case, _)| case).collect();
    let most = known.len() + GENERATED;
    let generated = (0..).map(|number| generate::case(&mut Random::of_case(seed, number)).1);
    let small = generated.filter(is_listed);
    for case in known.into_iter().chain(small) {
        if seen.len() == most {
            break;
        }
        hold_with(&case, Extent::Marks).map_err(|trouble| report(&case, &trouble, "a case for the list"))?;
        let written = written(&case);
        if seen.insert(written.clone()) {
            bytes.extend(written);
        }
    }
    let bytes = [head(most, seed).into_bytes(), bytes].concat();
    std::fs::write(file, bytes).map_err(|error| format!("{file} cannot be written: {error}"))?;
    println!("{most} rules and templates written to {file}");
    Ok(())
}

/// The list says nothing of labels and buffers, and holds small sheets.
fn is_listed(case: &Case) -> bool {
    let is_wide = case.path_len >= MIN_PATH_BYTES && case.scratch_len >= MIN_SCRATCH_WORDS;
    is_wide && case.label == b"r" && case.rule.len() <= MAX_BYTES && case.schema.len() <= MAX_BYTES
}

fn head(cases: usize, seed: u64) -> String {
    format!(
        "# {cases} rules and templates with their marks, written by host/differential/run SOURCES marks-vectors --out FILE --seed {seed}; the same seed gives\n\
         # the same bytes. The marks are those of the model, with which a second reading agrees. The library answers the same through rulecheck_check.\n\
         # A case is a line with numbers parted by commas: kind, semantics, the byte counts of table, schema sheet and rule sheet, the answer's\n\
         # number, and the marks. Then come table and both sheets, and a line end; the label is r. Lines that begin with # stand here only, before\n\
         # the first case.\n"
    )
}

fn written(case: &Case) -> Vec<u8> {
    let answer = check(&case.call());
    let Case { kind, semantics, table, schema, rule, .. } = case;
    let head = [*kind, *semantics, table.len() as u64, schema.len() as u64, rule.len() as u64, answer.number.into()];
    let numbers = head.into_iter().chain(Entry::Check.marks(case, &answer).into_iter().map(u64::from));
    let line: Vec<String> = numbers.map(|number| number.to_string()).collect();
    [line.join(",").as_bytes(), b"\n", table, schema, rule, b"\n"].concat()
}
