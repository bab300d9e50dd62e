//! The fewest marks to open: a search beside a single check of the same sheets, since it checks the rule again for each mark.

use crate::library::{self, Buffers};
use crate::measure;
use crate::sheets::{closed_objects, of_lots, Sample};

/// Both sheets, and how many marks are opened for the rule; none where no opening helps.
struct Search {
    name: &'static str,
    sample: Sample,
    marks: Option<u32>,
}

/// Usual sheets, then schemas of closed objects alone, the last of them as large as a schema may be. Misspelled names keep their length, so the first four differ in
/// nothing else.
fn searches() -> [Search; 6] {
    const USUAL: &str = "611 schema entries, a rule of 30";
    const OBJECTS: &str = "closed objects side by side, a reference into each";
    let first = |rule: &str| rule.replacen("weight", "colour", 1);
    let five = |rule: &str| rule.replace("weight", "colour").replacen("steel", "paint", 1);
    // A string is no collection, whatever is open; four marks are opened before that is met.
    let in_vain = |rule: &str| five(rule).replace("lot_40_bars", "lot_40_note");
    [
        Search { name: USUAL, sample: of_lots(0, str::to_owned), marks: Some(0) },
        Search { name: USUAL, sample: of_lots(18, first), marks: Some(1) },
        Search { name: USUAL, sample: of_lots(18, five), marks: Some(5) },
        Search { name: USUAL, sample: of_lots(18, in_vain), marks: None },
        Search { name: OBJECTS, sample: closed_objects(100), marks: Some(100) },
        Search { name: OBJECTS, sample: closed_objects(1_023), marks: Some(1_023) },
    ]
}

/// What is asked about the sheets.
#[derive(Clone, Copy)]
enum Side {
    Openings,
    Check,
}

const SIDES: [(&str, Side); 2] = [("openings", Side::Openings), ("check", Side::Check)];

/// Hands on the call of one side, after a first one.
fn with_call<T>(search: &Search, side: Side, measured: impl FnOnce(&mut dyn FnMut() -> bool) -> T) -> T {
    let mut buffers = Buffers::new();
    let mut call = || match side {
        Side::Openings => library::openings(&search.sample, &mut buffers) == search.marks,
        Side::Check => library::check(&search.sample, &mut buffers) == search.sample.number,
    };
    assert!(call(), "{}: another answer than for {:?} marks", search.name, search.marks);
    measured(&mut call)
}

/// Hands on the call of one side for the sheets of that row of the table, from 0.
pub fn on_row(side: &str, row: usize, measured: impl FnOnce(&mut dyn FnMut() -> bool)) -> Result<(), String> {
    let (_, side) = SIDES.iter().find(|(known, _)| *known == side).ok_or("no such side of openings")?;
    let searches = searches();
    with_call(searches.get(row).ok_or("no such row of openings")?, *side, measured);
    Ok(())
}

/// Of each side the time in nanoseconds and the instructions.
pub struct Row {
    name: &'static str,
    marks: Option<u32>,
    /// Of both sheets.
    bytes: usize,
    times: [f64; 2],
    instructions: [Option<u64>; 2],
}

pub fn rows(counting: bool) -> Vec<Row> {
    let row = |(at, search): (usize, Search)| {
        let count = |side: &str| measure::instructions(&["once", "openings", side, &at.to_string()]);
        Row {
            name: search.name,
            marks: search.marks,
            bytes: search.sample.bytes(),
            times: SIDES.map(|(_, side)| with_call(&search, side, |call| measure::time(call))),
            instructions: SIDES.map(|(name, _)| counting.then(|| count(name)).flatten()),
        }
    };
    eprintln!("bench: openings");
    searches().into_iter().enumerate().map(row).collect()
}

pub fn table(rows: &[Row]) -> String {
    let head = "| sheets | marks to open | bytes of both | library, µs | single check, µs | library, instructions | single check, instructions |\n|---|---|---|---|---|---|---|\n";
    let line = |row: &Row| {
        let marks = row.marks.map_or("no opening helps".to_owned(), |count| count.to_string());
        let [openings, check] = row.times.map(|time| time / 1e3);
        let [counted, beside] = row.instructions.map(|count| count.map_or(f64::NAN, |count| count as f64));
        format!("| {} | {marks} | {} | {openings:.1} | {check:.1} | {counted:.0} | {beside:.0} |\n", row.name, row.bytes)
    };
    head.to_owned() + &rows.iter().map(line).collect::<String>()
}
