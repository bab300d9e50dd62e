//! A whole rule book under one schema: the library's tally and its single checks beside the Rust, which builds the schema once.

use crate::library::{self, Buffers};
use crate::measure;
use crate::reader::{self, Rule, Schemas};
use crate::rust;
use crate::sheets::{book_rule, typical, Sample};

/// How many rules the measured books have.
pub const SIZES: [usize; 5] = [1, 10, 100, 300, 1_000];

/// Rules of 30 entries under a schema of 611.
struct Book {
    samples: Vec<Sample>,
    bytes: Vec<u8>,
}

impl Book {
    fn new(rules: usize) -> Self {
        let samples: Vec<Sample> = (0..rules).map(|at| Sample { rule: book_rule(at), ..typical(611) }).collect();
        let sheet = |sample: &Sample| [format!("{},", sample.rule.len()).as_bytes(), &sample.rule].concat();
        let bytes = samples.iter().flat_map(sheet).collect();
        Self { samples, bytes }
    }
}

/// Who answers.
#[derive(Clone, Copy)]
enum Side {
    Tally,
    /// The library, a check for each rule, so that the schema is read for each.
    OneByOne,
    /// The Rust on types that were built before.
    Validating,
    /// The Rust building the schema, then each rule, which it validates and drops.
    Building,
}

const SIDES: [(&str, Side); 4] =
    [("tally", Side::Tally), ("one-by-one", Side::OneByOne), ("validating", Side::Validating), ("building", Side::Building)];

/// Hands on the call of one side, after a first one.
fn with_call<T>(book: &Book, side: Side, measured: impl FnOnce(&mut dyn FnMut() -> bool) -> T) -> T {
    let mut buffers = Buffers::new();
    let first = &book.samples[0];
    let schemas = reader::schemas(&first.schema).expect("a measured sheet is well formed");
    let rules: Vec<Rule> = book.samples.iter().map(|sample| reader::rule(&sample.rule).expect("a measured sheet is well formed")).collect();
    let mut call = || match side {
        Side::Tally => library::tally(first, &book.bytes, &mut buffers) == book.samples.len() as u64,
        Side::OneByOne => book.samples.iter().all(|sample| library::check(sample, &mut buffers) == 0),
        Side::Validating => rules.iter().all(|rule| rust::validates(first, &schemas, rule)),
        Side::Building => built_once(book),
    };
    assert!(call(), "every rule of a measured book is accepted");
    measured(&mut call)
}

/// Whether the Rust accepts every rule, with the schema built once.
fn built_once(book: &Book) -> bool {
    let first = &book.samples[0];
    let Some(schemas) = reader::schemas(&first.schema) else {
        return false;
    };
    book.samples.iter().all(|sample| accepts(sample, &schemas))
}

fn accepts(sample: &Sample, schemas: &Schemas) -> bool {
    reader::rule(&sample.rule).is_some_and(|rule| rust::validates(sample, schemas, &rule))
}

/// A book of one size: its bytes, and of each side the time in nanoseconds and the instructions.
pub struct Row {
    rules: usize,
    bytes: usize,
    times: [f64; 4],
    instructions: [Option<u64>; 4],
}

pub fn rows(counting: bool) -> Vec<Row> {
    let row = |rules: usize| {
        eprintln!("bench: a book of {rules}");
        let book = Book::new(rules);
        let count = |side: &str| measure::instructions(&["once", "book", side, &rules.to_string()]);
        Row {
            rules,
            bytes: book.bytes.len(),
            times: SIDES.map(|(_, side)| with_call(&book, side, |call| measure::time(call))),
            instructions: SIDES.map(|(name, _)| counting.then(|| count(name)).flatten()),
        }
    };
    SIZES.into_iter().map(row).collect()
}

/// Hands on the call of one side for a book of so many rules.
pub fn on_book(side: &str, rules: usize, measured: impl FnOnce(&mut dyn FnMut() -> bool)) -> Result<(), String> {
    let (_, side) = SIDES.iter().find(|(known, _)| *known == side).ok_or("no such side of a book")?;
    with_call(&Book::new(rules), *side, measured);
    Ok(())
}

pub fn table(rows: &[Row]) -> String {
    let head = "| rules | bytes of the book | library, tally, µs | library, one by one, µs | Rust pre-built, µs | Rust building the schema once and each rule, µs | ratio | library, µs a rule |\n|---|---|---|---|---|---|---|---|\n";
    let line = |row: &Row| {
        let [tally, one_by_one, validating, building] = row.times.map(|time| time / 1e3);
        let Row { rules, bytes, .. } = row;
        format!(
            "| {rules} | {bytes} | {tally:.1} | {one_by_one:.1} | {validating:.1} | {building:.1} | {:.2} | {:.2} |\n",
            tally / building,
            tally / *rules as f64
        )
    };
    head.to_owned() + &rows.iter().map(line).collect::<String>()
}

/// Instructions, and how many of the tally's there are for each rule that a book has more than the one before.
pub fn counts(rows: &[Row]) -> String {
    let head = "| rules | library, tally | library, one by one | Rust pre-built | Rust building the schema once and each rule | ratio | library, for each rule more |\n|---|---|---|---|---|---|---|\n";
    let mut lines = head.to_owned();
    let mut last: Option<(&Row, f64)> = None;
    for row in rows {
        let [tally, one_by_one, validating, building] = row.instructions.map(|count| count.map_or(f64::NAN, |count| count as f64));
        let more = last.map(|(before, count)| format!("{:.0}", (tally - count) / (row.rules - before.rules) as f64));
        let more = more.unwrap_or_default();
        lines += &format!(
            "| {} | {tally:.0} | {one_by_one:.0} | {validating:.0} | {building:.0} | {:.2} | {more} |\n",
            row.rules,
            tally / building
        );
        last = Some((row, tally));
    }
    lines
}
