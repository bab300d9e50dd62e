//! `openings-vectors`: a fixed list of rules and the marks to open for them that a program can replay without model and Rust.

use crate::library::lent::Extent;
use crate::runs::openings::run::Table;
use crate::runs::openings::sets::Asked;
use crate::runs::openings::{hold, report};
use cases::limits::MIN_PATH_BYTES;
use cases::openings::edges::edges;
use cases::openings::generate::case;
use cases::openings::OpeningsCase;
use cases::random::Random;
use model::{OPENINGS_BYTES, OPENING_LIST_BYTES};
use std::collections::BTreeSet;

/// No case of the list has larger sheets than this.
const MAX_CASE_BYTES: usize = 700;

/// How many cases the list has besides the edges.
const GENERATED: usize = 1_000;

/// Of the known edges each so manieth is taken, since there are many of a sort.
const EDGE_STEP: usize = 2;

/// Writes the list; an error before that leaves the file as it was.
pub fn vectors(file: &str, seed: u64) -> Result<(), String> {
    let mut list = List::default();
    for case in edges().iter().step_by(EDGE_STEP) {
        list.take(case)?;
    }
    let known = list.seen.len();
    for number in 0.. {
        if list.seen.len() == known + GENERATED {
            break;
        }
        list.take(&case(&mut Random::of_case(seed, number)).1)?;
    }
    // That a path buffer, a list or a result is too short is not recorded.
    if let Some(missing) = list.table.missing().iter().find(|answer| !matches!(answer[0], 3 | 36)) {
        return Err(format!("no case of the list has the answer {missing:?}"));
    }
    let cases = list.seen.len();
    let bytes = [head(cases, seed).into_bytes(), list.bytes].concat();
    std::fs::write(file, bytes).map_err(|error| format!("{file} cannot be written: {error}"))?;
    println!("{}{cases} cases written to {file}", list.table);
    Ok(())
}

fn head(cases: usize, seed: u64) -> String {
    format!(
        "# {cases} rules and templates with the marks to open for them, written by host/differential/run SOURCES openings-vectors --out FILE --seed {seed}; the\n\
         # same seed gives the same bytes. Each was asked of the Rust in SOURCES under every set of openings: the marks are the set that it accepts and that is\n\
         # in every other such set, and there is none where it accepts no set. Refusals are the model's alone. The library answers the same through\n\
         # rulecheck_openings.\n\
         # A case is a line with numbers parted by commas: kind, semantics, the byte counts of table, schema sheet and rule sheet, the answer's number, 1 if\n\
         # there is a set and else 0, and the marks of the set. Then come table and both sheets, and a line end. Lines that begin with # stand here only,\n\
         # before the first case.\n"
    )
}

#[derive(Default)]
struct List {
    seen: BTreeSet<Vec<u8>>,
    table: Table,
    bytes: Vec<u8>,
}

impl List {
    /// Adds the case if it is new and small, the Rust was asked about every set unless it is refused, and its buffers are wide enough, which the list does not record; an error is a
    /// disagreement.
    fn take(&mut self, case: &OpeningsCase) -> Result<(), String> {
        let is_wide = case.path_len >= MIN_PATH_BYTES && case.list_len >= OPENING_LIST_BYTES && case.result_len >= OPENINGS_BYTES;
        if !is_wide || case.schema.len() + case.rule.len() > MAX_CASE_BYTES {
            return Ok(());
        }
        let (opened, asked) = hold(case, Extent::Some).map_err(|trouble| report(case, &trouble, "a case for the list"))?;
        let (numbers, set) = &opened;
        let is_asked = numbers[0] != 0 || matches!(asked, Asked::Every(_));
        let counts = case.inputs().map(|part| part.len() as u64);
        let told = numbers[..2].iter().chain(set).map(|number| u64::from(*number));
        let line: Vec<String> =
            [case.kind, case.semantics].into_iter().chain(counts).chain(told).map(|number| number.to_string()).collect();
        let [table, schema, rule] = case.inputs();
        let written = [line.join(",").as_bytes(), b"\n", table, schema, rule, b"\n"].concat();
        if is_asked && self.seen.insert(written.clone()) {
            self.table.count(&opened, asked);
            self.bytes.extend_from_slice(&written);
        }
        Ok(())
    }
}
