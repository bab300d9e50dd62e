//! `tables-vectors`: fixed lists of checks under tables and of loads that a program can replay without the Rust.

use crate::library::entry::numbers;
use crate::runs::agreement::{hold, Held};
use crate::runs::compare::report;
use crate::runs::tables::{hold_load, report_load};
use crate::runs::tally::Tally;
use cases::case::Case;
use cases::limits::{MIN_PATH_BYTES, MIN_SCRATCH_WORDS};
use cases::random::Random;
use cases::tables::edges::{edges, loads};
use cases::tables::{generate, LoadCase};
use model::Answer;
use std::collections::BTreeSet;

/// No case of the list has larger sheets than this.
const MAX_SHEETS_BYTES: usize = 260;

/// How many generated cases the lists have besides the edges.
const GENERATED: usize = 1_000;
const GENERATED_LOADS: usize = 200;

/// Of the known edges each so manieth is taken, since there are many of a sort.
const EDGE_STEP: usize = 5;

/// Writes both lists; an error before that leaves the files as they were.
pub fn vectors(checks: &str, loads_file: &str, seed: u64) -> Result<(), String> {
    let mut list = List::default();
    for case in edges().iter().step_by(EDGE_STEP).filter(|case| is_small(case)) {
        list.take(case)?;
    }
    let known = list.seen.len();
    let mut number = 0;
    while list.seen.len() < known + GENERATED {
        let (_, case) = generate::case(&mut Random::of_case(seed, number));
        if is_small(&case) {
            list.take(&case)?;
        }
        number += 1;
    }
    let written = loads_of(seed)?;
    let write = |file: &str, bytes: Vec<u8>| std::fs::write(file, bytes).map_err(|error| format!("{file} cannot be written: {error}"));
    write(checks, [head(list.seen.len(), seed).into_bytes(), list.bytes].concat())?;
    write(loads_file, [loads_head(written.len(), seed).into_bytes(), written.concat()].concat())?;
    println!("{}\n{} cases written to {checks}, {} loads to {loads_file}", list.tally, list.seen.len(), written.len());
    Ok(())
}

fn head(cases: usize, seed: u64) -> String {
    format!(
        "# {cases} checks under name tables and their answers, written by host/differential/run SOURCES tables-vectors --out FILE --loads FILE\n\
         # --seed {seed}; the same seed gives the same bytes. Acceptance, family, detail and path are those of the Rust in SOURCES, its name test\n\
         # replaced by the table where that is not the stock one; number, places and passed count are those of the model beside it. Refusals are\n\
         # the model's alone. The library answers the same through rulecheck_check.\n\
         # A case is a line with thirteen numbers parted by commas: kind, semantics, the byte counts of label, table, schema sheet and rule sheet,\n\
         # and the seven numbers of the answer. Then come the label, a line end, table, both sheets and the path, and a line end. Lines that begin\n\
         # with # stand here only, before the first case.\n"
    )
}

fn loads_head(loads: usize, seed: u64) -> String {
    format!(
        "# {loads} name tables to load and their answers, written by host/differential/run SOURCES tables-vectors --out FILE --loads FILE --seed {seed};\n\
         # the same seed gives the same bytes. The answers are those of the model, with which a second reading agrees. The library answers the same\n\
         # through rulecheck_load_table.\n\
         # A case is a line with three numbers parted by commas: the byte counts of table and buffer, and the answer. Then come the table and a\n\
         # line end. Lines that begin with # stand here only, before the first case.\n"
    )
}

/// The list says nothing of buffers and holds small sheets.
fn is_small(case: &Case) -> bool {
    let is_wide = case.path_len >= MIN_PATH_BYTES && case.scratch_len >= MIN_SCRATCH_WORDS;
    is_wide && case.label.len() + case.schema.len() + case.rule.len() <= MAX_SHEETS_BYTES
}

#[derive(Default)]
struct List {
    seen: BTreeSet<Vec<u8>>,
    tally: Tally,
    bytes: Vec<u8>,
}

impl List {
    /// Adds the case if it is new and was not kept out; an error is a disagreement.
    fn take(&mut self, case: &Case) -> Result<(), String> {
        let held = hold(case).map_err(|trouble| report(case, &trouble, "a case for the list"))?;
        let answer = match &held {
            Held::KeptOut => return Ok(()),
            Held::Refused(number) => Answer { number: *number, ..Answer::default() },
            Held::Agreed(answer) => answer.clone(),
        };
        let Case { kind, semantics, label, table, schema, rule, .. } = case;
        let counts = [label, table, schema, rule].map(|part| part.len().to_string()).join(",");
        let told = numbers(&answer).map(|number| number.to_string()).join(",");
        let line = format!("{kind},{semantics},{counts},{told}\n");
        let written = [line.as_bytes(), label, b"\n", table, schema, rule, &answer.path, b"\n"].concat();
        if self.seen.insert(written.clone()) {
            self.tally.count(&held);
            self.bytes.extend_from_slice(&written);
        }
        Ok(())
    }
}

/// The loads of the list as they are written.
fn loads_of(seed: u64) -> Result<Vec<Vec<u8>>, String> {
    let known = loads().into_iter().step_by(EDGE_STEP);
    let made = (0..GENERATED_LOADS as u64).map(|number| generate::load(&mut Random::of_case(seed, number)));
    let mut seen = BTreeSet::new();
    let mut written = Vec::new();
    for case in known.chain(made) {
        let number = hold_load(&case).map_err(|trouble| report_load(&case, &trouble, "a load for the list"))?;
        let LoadCase { table, buffer_len, .. } = &case;
        let one = [format!("{},{buffer_len},{number}\n", table.len()).as_bytes(), table, b"\n"].concat();
        if seen.insert(one.clone()) {
            written.push(one);
        }
    }
    Ok(written)
}
