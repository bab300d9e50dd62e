//! `keys-vectors`: a fixed list of keys and their answers that a program can replay without the Rust.

use crate::library::lent::Extent;
use crate::runs::keys::run::Table;
use crate::runs::keys::{hold, report};
use cases::keys::edges::edges;
use cases::keys::generate::case;
use cases::keys::KeyCase;
use cases::limits::RESULT_BYTES;
use cases::random::Random;
use std::collections::BTreeSet;

/// No generated case of the list is larger than this.
const MAX_CASE_BYTES: usize = 300;

/// How many cases the list has besides the edges.
const GENERATED: usize = 1_000;

/// Writes the list; an error before that leaves the file as it was.
pub fn vectors(file: &str, seed: u64) -> Result<(), String> {
    let mut list = List::default();
    for case in edges() {
        list.take(&case)?;
    }
    let known = list.seen.len();
    for number in 0.. {
        if list.seen.len() == known + GENERATED {
            break;
        }
        let (_, case) = case(&mut Random::of_case(seed, number));
        if case.path.len() + case.schema.len() <= MAX_CASE_BYTES {
            list.take(&case)?;
        }
    }
    // That a result is too short is not recorded.
    if let Some(missing) = list.table.missing().iter().find(|(number, ..)| *number != 3) {
        return Err(format!("no case of the list has the answer {missing:?}"));
    }
    let cases = list.seen.len();
    let bytes = [head(cases, seed).into_bytes(), list.bytes].concat();
    std::fs::write(file, bytes).map_err(|error| format!("{file} cannot be written: {error}"))?;
    println!("{}{cases} cases written to {file}", list.table);
    Ok(())
}

fn head(cases: usize, seed: u64) -> String {
    format!(
        "# {cases} keys and their answers, written by host/differential/run SOURCES keys-vectors --out FILE --seed {seed}; the same seed gives the same\n\
         # bytes. Acceptance and detail are those of the Rust in SOURCES, refusals 1, 2 and 4 those of the model beside it, since the Rust sees no\n\
         # sheets. The library answers the same through rulecheck_path.\n\
         # A case is a line with seven numbers parted by commas: semantics, reader, the byte counts of path and schema sheet, and of the answer\n\
         # number, detail and passed; its other numbers are 0. Then come the path, a line end, and the sheet. Lines that begin with # stand here\n\
         # only, before the first case.\n"
    )
}

#[derive(Default)]
struct List {
    seen: BTreeSet<Vec<u8>>,
    table: Table,
    bytes: Vec<u8>,
}

impl List {
    /// Adds the case if it is new and its result is wide enough, which the list does not record; an error is a disagreement.
    fn take(&mut self, case: &KeyCase) -> Result<(), String> {
        let answer = hold(case, Extent::Some).map_err(|trouble| report(case, &trouble, "a case for the list"))?;
        let KeyCase { semantics, reader, path, schema, .. } = case;
        let head = format!("{semantics},{reader},{},{}", path.len(), schema.len());
        let written = [format!("{head},{},{},{}\n", answer.number, answer.detail, answer.passed).as_bytes(), path, b"\n", schema].concat();
        if case.result_len >= RESULT_BYTES && self.seen.insert(written.clone()) {
            self.table.count(case, &answer);
            self.bytes.extend_from_slice(&written);
        }
        Ok(())
    }
}
