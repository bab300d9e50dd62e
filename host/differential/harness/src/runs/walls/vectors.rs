//! `walls-vectors`: a fixed list of rule books and their pages that a program can replay.

use crate::library::lent::Extent;
use crate::runs::walls::{hold, report};
use cases::books::Expect;
use cases::limits::MIN_PATH_BYTES;
use cases::random::Random;
use cases::walls::edges::edges;
use cases::walls::generate::case;
use cases::walls::WallCase;
use model::WALL_BYTES;
use std::collections::BTreeSet;

/// No book of the list is larger than this, with its schema.
const MAX_CASE_BYTES: usize = 900;

/// How many books the list has besides the edges.
const GENERATED: usize = 60;

/// Of the known edges each so manieth is taken, since there are many of a sort, and the first of each refusal.
const EDGE_STEP: usize = 8;

/// Writes the list; an error before that leaves the file as it was.
pub fn vectors(file: &str, seed: u64) -> Result<(), String> {
    let mut list = List::default();
    for (at, case) in edges().iter().enumerate() {
        let is_new = |number: u32| !list.numbers.contains(&number.into());
        if at % EDGE_STEP == 0 || matches!(case.book.expect, Expect::Refused(number) if is_new(number)) {
            list.take(case)?;
        }
    }
    let known = list.seen.len();
    for number in 0.. {
        if list.seen.len() == known + GENERATED {
            break;
        }
        list.take(&case(&mut Random::of_case(seed, number)).1)?;
    }
    // That a path buffer or a result is too short is not recorded.
    if let Some(missing) = [0, 1, 2, 33, 34, 37, 38].iter().find(|number| !list.numbers.contains(number)) {
        return Err(format!("no book of the list has the answer {missing}"));
    }
    let books = list.seen.len();
    let bytes = [head(books, seed).into_bytes(), list.bytes].concat();
    std::fs::write(file, bytes).map_err(|error| format!("{file} cannot be written: {error}"))?;
    println!("{books} books written to {file}");
    Ok(())
}

fn head(books: usize, seed: u64) -> String {
    format!(
        "# {books} rule books and their wall sheets, written by host/differential/run SOURCES walls-vectors --out FILE --seed {seed}; the same seed\n\
         # gives the same bytes. The pages are the model's there, and the library's, through rulecheck_wall.\n\
         # A case is a line with nine numbers parted by commas: kind, semantics, the byte counts of label, table, schema sheet and book, the bytes\n\
         # of the buffer for the pages, and number and pages of the answer. Then come the label, a line end, table, schema and book, a line end, and\n\
         # the pages, blanks at the end of each line left out. Lines that begin with # stand here only, before the first case.\n"
    )
}

#[derive(Default)]
struct List {
    seen: BTreeSet<Vec<u8>>,
    numbers: BTreeSet<u64>,
    bytes: Vec<u8>,
}

impl List {
    /// Adds the book if it is new and small and its path buffer and result are wide enough, which the list does not record; an error is a disagreement.
    fn take(&mut self, case: &WallCase) -> Result<(), String> {
        let book = &case.book;
        let is_wide = book.path_len >= MIN_PATH_BYTES && book.result_len >= WALL_BYTES;
        if !is_wide || book.schema.len() + book.book.len() > MAX_CASE_BYTES {
            return Ok(());
        }
        let (numbers, pages) = hold(case, Extent::Some).map_err(|trouble| report(case, &trouble, "a book for the list"))?;
        let counts = book.inputs().map(|part| part.len().to_string()).join(",");
        let line = format!("{},{},{counts},{},{},{}\n", book.kind, book.semantics, case.pages_len, numbers[0], numbers[1]);
        let [label, table, schema, sheets] = book.inputs();
        let mut written = [line.as_bytes(), label, b"\n", table, schema, sheets, b"\n"].concat();
        for line in pages.chunks(81) {
            written.extend_from_slice(line[..80].trim_ascii_end());
            written.push(b'\n');
        }
        if self.seen.insert(written.clone()) {
            self.numbers.insert(numbers[0]);
            self.bytes.extend_from_slice(&written);
        }
        Ok(())
    }
}
