//! `widens-vectors`: a fixed list of pairs of schemas and their answers that a program can replay.

use crate::library::lent::Extent;
use crate::runs::widens::run::Table;
use crate::runs::widens::{hold, report};
use cases::limits::RESULT_BYTES;
use cases::random::Random;
use cases::widens::edges::edges;
use cases::widens::generate::{case, PROFILES};
use cases::widens::WidensCase;
use std::collections::BTreeSet;

/// No generated pair of the list is larger than this, but for some of the profiles that are about size.
const MAX_CASE_BYTES: usize = 400;

/// How many pairs the list has besides the edges and the large ones.
const GENERATED: usize = 1_000;

/// Profiles of large pairs, and how many of each the list has.
const LARGE: [(&str, usize); 3] = [("deep", 20), ("wide", 2), ("limits", 6)];

/// Writes the list; an error before that leaves the file as it was.
pub fn vectors(file: &str, seed: u64) -> Result<(), String> {
    let mut list = List::default();
    for case in edges() {
        list.take(&case)?;
    }
    let known = list.seen.len();
    for number in 0.. {
        if list.seen.len() == known + GENERATED {
            break;
        }
        let (_, case) = case(&mut Random::of_case(seed, number));
        if case.first.len() + case.second.len() <= MAX_CASE_BYTES {
            list.take(&case)?;
        }
    }
    for (name, count) in LARGE {
        let make = PROFILES.iter().find(|profile| profile.0 == name).expect("a profile of that name").2;
        for number in 0..count as u64 {
            list.take(&make(&mut Random::of_case(seed, number)))?;
        }
    }
    // That a result is too short is not recorded.
    if let Some(missing) = list.table.missing().iter().find(|answer| answer[0] != 3) {
        return Err(format!("no pair of the list has the answer {missing:?}"));
    }
    let cases = list.seen.len();
    let bytes = [head(cases, seed).into_bytes(), list.bytes].concat();
    std::fs::write(file, bytes).map_err(|error| format!("{file} cannot be written: {error}"))?;
    println!("{}{cases} pairs written to {file}", list.table);
    Ok(())
}

fn head(cases: usize, seed: u64) -> String {
    format!(
        "# {cases} pairs of schema sheets and what rulecheck_widens answers, written by host/differential/run SOURCES widens-vectors --out FILE --seed {seed};\n\
         # the same seed gives the same bytes. The answers are those of the model there, which the library shares.\n\
         # A case is a line with seven numbers parted by commas: the byte counts of the first and the second sheet, and of the answer number, answer (of\n\
         # a refusal the sheet), reason, and the entries in the first and in the second sheet. Then come the two sheets and a line end. Lines that\n\
         # begin with # stand here only, before the first case.\n"
    )
}

#[derive(Default)]
struct List {
    seen: BTreeSet<Vec<u8>>,
    table: Table,
    bytes: Vec<u8>,
}

impl List {
    /// Adds the pair if it is new and its result is wide enough, which the list does not record; an error is a disagreement.
    fn take(&mut self, case: &WidensCase) -> Result<(), String> {
        let numbers = hold(case, Extent::Some).map_err(|trouble| report(case, &trouble, "a pair for the list"))?;
        let WidensCase { first, second, .. } = case;
        let [number, answer, reason, one, two, ..] = numbers;
        let head = format!("{},{},{number},{answer},{reason},{one},{two}\n", first.len(), second.len());
        let written = [head.as_bytes(), first, second, b"\n"].concat();
        if case.result_len >= RESULT_BYTES && self.seen.insert(written.clone()) {
            self.table.count(&numbers);
            self.bytes.extend_from_slice(&written);
        }
        Ok(())
    }
}
