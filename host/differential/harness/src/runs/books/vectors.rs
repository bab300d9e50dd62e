//! `books-vectors`: a fixed list of rule books and their tallies that a program can replay without the Rust.

use crate::library::lent::Extent;
use crate::runs::books::run::Table;
use crate::runs::books::{hold_all, report};
use cases::books::edges::edges;
use cases::books::generate::case;
use cases::books::BookCase;
use cases::limits::MIN_PATH_BYTES;
use cases::random::Random;
use model::TALLY_BYTES;
use std::collections::BTreeSet;

/// No book of the list is larger than this, with its schema.
const MAX_CASE_BYTES: usize = 900;

/// How many books the list has besides the edges.
const GENERATED: usize = 400;

/// Of the known edges each so manieth is taken, since there are many of a sort.
const EDGE_STEP: usize = 3;

/// Writes the list; an error before that leaves the file as it was.
pub fn vectors(file: &str, seed: u64) -> Result<(), String> {
    let mut list = List::default();
    for case in edges().iter().step_by(EDGE_STEP) {
        list.take(case)?;
    }
    let known = list.seen.len();
    for number in 0.. {
        if list.seen.len() == known + GENERATED {
            break;
        }
        list.take(&case(&mut Random::of_case(seed, number)).1)?;
    }
    // That a buffer is too short is not recorded.
    if let Some(missing) = list.table.missing().iter().find(|answer| **answer != 3) {
        return Err(format!("no book of the list has the answer {missing}"));
    }
    let books = list.seen.len();
    let bytes = [head(books, seed).into_bytes(), list.bytes].concat();
    std::fs::write(file, bytes).map_err(|error| format!("{file} cannot be written: {error}"))?;
    println!("{}{books} books written to {file}", list.table);
    Ok(())
}

fn head(books: usize, seed: u64) -> String {
    format!(
        "# {books} rule books and their tallies, written by host/differential/run SOURCES books-vectors --out FILE --seed {seed}; the same seed gives\n\
         # the same bytes. What counts for a sheet is what the Rust in SOURCES says of it, and the model beside it; refusals are the model's alone.\n\
         # The library answers the same through rulecheck_tally.\n\
         # A case is a line with 24 numbers parted by commas: kind, semantics, the byte counts of label, table, schema sheet and book, and the\n\
         # eighteen numbers of the answer. Then come the label, a line end, table, schema and book, and a line end. Lines that begin with # stand\n\
         # here only, before the first case.\n"
    )
}

#[derive(Default)]
struct List {
    seen: BTreeSet<Vec<u8>>,
    table: Table,
    bytes: Vec<u8>,
}

impl List {
    /// Adds the book if it is new and small, the Rust was asked about all of its sheets, and its buffers are wide enough, which the list does not record; an
    /// error is a disagreement.
    fn take(&mut self, case: &BookCase) -> Result<(), String> {
        let is_wide = case.path_len >= MIN_PATH_BYTES && case.result_len >= TALLY_BYTES;
        if !is_wide || case.schema.len() + case.book.len() > MAX_CASE_BYTES {
            return Ok(());
        }
        let (numbers, kept_out) = hold_all(case, Extent::Some).map_err(|trouble| report(case, &trouble, "a book for the list"))?;
        let counts = case.inputs().map(|part| part.len().to_string()).join(",");
        let told = numbers.map(|number| number.to_string()).join(",");
        let line = format!("{},{},{counts},{told}\n", case.kind, case.semantics);
        let [label, table, schema, book] = case.inputs();
        let written = [line.as_bytes(), label, b"\n", table, schema, book, b"\n"].concat();
        if kept_out == 0 && self.seen.insert(written.clone()) {
            self.table.count(&numbers, kept_out);
            self.bytes.extend_from_slice(&written);
        }
        Ok(())
    }
}
