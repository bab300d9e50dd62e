//! The message of a defect: a check that writes it beside one that does not, and beside the Rust making its error from types that were built before.

use crate::library::{self, Buffers};
use crate::sheets::{told, Sample};
use crate::{measure, rust};

/// Who answers.
#[derive(Clone, Copy)]
enum Side {
    Explaining,
    Checking,
    Rust,
}

const SIDES: [(&str, Side); 3] = [("explaining", Side::Explaining), ("checking", Side::Checking), ("rust", Side::Rust)];

/// Hands on the call of one side, after a first one.
fn with_call<T>(sample: &Sample, side: Side, measured: impl FnOnce(&mut dyn FnMut() -> bool) -> T) -> T {
    let mut buffers = Buffers::new();
    let built = rust::build(sample).expect("a measured sheet is well formed");
    let mut call = || match side {
        Side::Explaining => library::explain(sample, &mut buffers).0 == sample.number,
        Side::Checking => library::mark(sample, &mut buffers) == sample.number,
        Side::Rust => rust::validate(sample, &built) == (sample.number == 0),
    };
    assert!(call(), "a measured sheet is answered as it was made to be");
    measured(&mut call)
}

/// Hands on the call of one side for the sheets of that row of the table, from 0.
pub fn on_row(side: &str, row: usize, measured: impl FnOnce(&mut dyn FnMut() -> bool)) -> Result<(), String> {
    let (_, side) = SIDES.iter().find(|(known, _)| *known == side).ok_or("no such side of messages")?;
    let samples = told();
    with_call(&samples.get(row).ok_or("no such row of messages")?.1, *side, measured);
    Ok(())
}

/// Of each side the time in nanoseconds, and of the library's two the instructions.
pub struct Row {
    name: &'static str,
    /// Of both sheets.
    bytes: usize,
    /// Of the message.
    length: u32,
    times: [f64; 3],
    instructions: [Option<u64>; 2],
}

pub fn rows(counting: bool) -> Vec<Row> {
    let row = |(at, (name, sample)): (usize, (&'static str, Sample))| {
        let count = |side: &str| measure::instructions(&["once", "messages", side, &at.to_string()]);
        Row {
            name,
            bytes: sample.bytes(),
            length: library::explain(&sample, &mut Buffers::new()).1,
            times: SIDES.map(|(_, side)| with_call(&sample, side, |call| measure::time(call))),
            instructions: ["explaining", "checking"].map(|name| counting.then(|| count(name)).flatten()),
        }
    };
    eprintln!("bench: messages");
    told().into_iter().enumerate().map(row).collect()
}

pub fn table(rows: &[Row]) -> String {
    let head = "| sheets | bytes of both | bytes of the message | with message, µs | without, µs | Rust pre-built, µs | with message, instructions | without, instructions | more |\n|---|---|---|---|---|---|---|---|---|\n";
    let line = |row: &Row| {
        let [explaining, checking, rust] = row.times.map(|time| time / 1e3);
        let [with, without] = row.instructions.map(|count| count.map_or(f64::NAN, |count| count as f64));
        let more = 100.0 * (with - without) / without;
        format!(
            "| {} | {} | {} | {explaining:.2} | {checking:.2} | {rust:.2} | {with:.0} | {without:.0} | {more:+.1} % |\n",
            row.name, row.bytes, row.length
        )
    };
    head.to_owned() + &rows.iter().map(line).collect::<String>()
}
