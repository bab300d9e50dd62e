//! Measures the library beside the Rust on the same sheets and writes the figures, and a plot, into a document: `bench DOCUMENT`.
//! `bench once GROUP SIDE SIZE` makes a single call for valgrind to count, `bench time GROUP SIDE SIZE` prints how many nanoseconds it takes;
//! `bench plain` prints the figures only, without counting; `bench marks` prints what it costs to mark constant conditions; `bench books DOCUMENT` writes the
//! figures of rule books alone, `bench openings DOCUMENT` those of openings, `bench messages DOCUMENT` those of messages, and `bench json DOCUMENT` those of rules as JSON; `bench files FOLDER` writes a file for `rulecheck` for each group, which sketches are measured on.

mod books;
mod json;
mod library;
mod measure;
mod messages;
mod openings;
mod pairs;
mod plot;
mod reader;
mod report;
mod row;
mod rust;
mod sheets;
mod stack;

#[path = "../../differential/harness/src/oracle/convert.rs"]
mod convert;

#[allow(dead_code, reason = "not every function is measured")]
#[rustfmt::skip] // Its own crate lays it out.
#[path = "../../src/raw/functions.rs"]
mod functions;

use library::Buffers;
use model::trees;
use model::{decode_rule, decode_schema};
use report::{Acceptance, Figures};
use row::{Point, Row};
use sheets::{Group, Sample, GROUPS, NUMBERS};
use std::path::Path;
use std::process::ExitCode;

const USAGE: &str =
    "usage: bench DOCUMENT | bench plain | bench marks | bench books DOCUMENT | bench openings DOCUMENT | bench messages DOCUMENT | bench json DOCUMENT | bench files FOLDER | bench once GROUP SIDE SIZE | bench time GROUP SIDE SIZE";

/// Who answers.
#[derive(Clone, Copy)]
pub enum Side {
    Library,
    /// The library, marking the conditions that are constant.
    Marking,
    /// The Rust on types that were built before.
    Validating,
    /// The Rust building its types from the bytes, validating and dropping them.
    Building,
}

impl Side {
    const ALL: [(&'static str, Side); 3] = [("library", Side::Library), ("validating", Side::Validating), ("building", Side::Building)];

    fn named(name: &str) -> Option<Self> {
        let all = Self::ALL.iter().chain(&[("marking", Side::Marking)]);
        all.into_iter().find(|(known, _)| *known == name).map(|(_, side)| *side)
    }
}

fn main() -> ExitCode {
    let words: Vec<String> = std::env::args().skip(1).collect();
    let words: Vec<&str> = words.iter().map(String::as_str).collect();
    let done = match words[..] {
        ["once", "book", side, size] => on_book(side, size, |call| measure::counted_call(call)),
        ["time", "book", side, size] => on_book(side, size, |call| println!("{:.0}", measure::time(call))),
        ["books", document] => report::write(document, &report::book_parts(&books::rows(true))),
        ["once", "openings", side, row] => on_openings(side, row, |call| measure::counted_call(call)),
        ["time", "openings", side, row] => on_openings(side, row, |call| println!("{:.0}", measure::time(call))),
        ["openings", document] => report::write(document, &[report::openings_part(&openings::rows(true))]),
        ["once", "messages", side, row] => on_messages(side, row, |call| measure::counted_call(call)),
        ["time", "messages", side, row] => on_messages(side, row, |call| println!("{:.0}", measure::time(call))),
        ["messages", document] => report::write(document, &[report::messages_part(&messages::rows(true))]),
        ["once", "json", side, row] => on_json(side, row, |call| measure::counted_call(call)),
        ["time", "json", side, row] => on_json(side, row, |call| println!("{:.0}", measure::time(call))),
        ["json"] => {
            println!("{}", json::table(&json::rows(false)));
            json::depths().iter().for_each(|(name, bytes)| println!("| {name} | {bytes} |"));
            Ok(())
        }
        ["json", document] => report::write(document, &[report::json_part(&json::rows(true))]),
        ["once", group, side, size] => on_sample(group, side, size, |call| measure::counted_call(call)),
        ["time", group, side, size] => on_sample(group, side, size, |call| println!("{:.0}", measure::time(call))),
        ["marks"] => marks(),
        ["files", folder] => files(Path::new(folder)).map_err(|problem| problem.to_string()),
        ["plain"] => all(false).map(|figures| println!("{}", figures.tables())),
        // A word that is no file is answered by the usage, before anything is measured.
        [document] if Path::new(document).is_file() => all(true).and_then(|figures| figures.write(document)),
        _ => Err(USAGE.to_owned()),
    };
    match done {
        Ok(()) => ExitCode::SUCCESS,
        Err(problem) => {
            eprintln!("bench: {problem}");
            ExitCode::FAILURE
        }
    }
}

/// Hands on the call of one side for a book of that size.
fn on_book(side: &str, size: &str, measured: impl FnOnce(&mut dyn FnMut() -> bool)) -> Result<(), String> {
    books::on_book(side, size.parse().map_err(|_| "the size is not a number")?, measured)
}

/// Hands on the call of one side for that row of openings.
fn on_openings(side: &str, row: &str, measured: impl FnOnce(&mut dyn FnMut() -> bool)) -> Result<(), String> {
    openings::on_row(side, row.parse().map_err(|_| "the row is not a number")?, measured)
}

/// Hands on the call of one side for that row of messages.
fn on_messages(side: &str, row: &str, measured: impl FnOnce(&mut dyn FnMut() -> bool)) -> Result<(), String> {
    messages::on_row(side, row.parse().map_err(|_| "the row is not a number")?, measured)
}

/// Hands on the call of one side for that row of rules as JSON.
fn on_json(side: &str, row: &str, measured: impl FnOnce(&mut dyn FnMut() -> bool)) -> Result<(), String> {
    json::on_row(side, row.parse().map_err(|_| "the row is not a number")?, measured)
}

/// Hands on the call of one side for the sample of that group and size.
fn on_sample(group: &str, side: &str, size: &str, measured: impl FnOnce(&mut dyn FnMut() -> bool)) -> Result<(), String> {
    let group = GROUPS.iter().chain(&NUMBERS).find(|known| known.name == group).ok_or("no such group")?;
    let side = Side::named(side).ok_or("no such side")?;
    let size = size.parse().map_err(|_| "the size is not a number")?;
    let sample = (group.make)(size);
    with_call(&sample, side, measured);
    Ok(())
}

/// Hands on the call of one side, after a first one.
fn with_call<T>(sample: &Sample, side: Side, measured: impl FnOnce(&mut dyn FnMut() -> bool) -> T) -> T {
    let mut buffers = Buffers::new();
    let built = rust::build(sample).expect("a measured sheet is well formed");
    let mut call = || match side {
        Side::Library => library::check(sample, &mut buffers) == sample.number,
        Side::Marking => library::mark(sample, &mut buffers) == sample.number,
        Side::Validating => rust::validate(sample, &built) == (sample.number == 0),
        Side::Building => rust::build_and_validate(sample) == (sample.number == 0),
    };
    assert!(call(), "a measured sheet is answered as it was made to be");
    measured(&mut call)
}

fn time(sample: &Sample, side: Side) -> f64 {
    with_call(sample, side, |call| measure::time(call))
}

/// Prints for each group how many instructions a check has, and how many with marks.
fn marks() -> Result<(), String> {
    for group in GROUPS.iter().chain(&NUMBERS) {
        let size = group.listed.to_string();
        let count = |side| measure::instructions(&["once", group.name, side, &size]).ok_or("valgrind is missing");
        let (without, with) = (count("library")?, count("marking")?);
        let more = 100.0 * (with as f64 - without as f64) / without as f64;
        println!("| {} | {without} | {with} | {more:+.2}% |", group.name);
    }
    Ok(())
}

/// Writes a file for `rulecheck` for each group, of the size that the table has.
fn files(folder: &Path) -> std::io::Result<()> {
    for group in GROUPS.iter().chain(&NUMBERS) {
        let Sample { kind, semantics, schema, rule, .. } = (group.make)(group.listed);
        let numbers = format!("{kind},{semantics},4,{},{},post\n", schema.len(), rule.len());
        let place = folder.join(group.name);
        std::fs::create_dir_all(&place)?;
        std::fs::write(place.join("check.in"), [numbers.into_bytes(), schema, rule].concat())?;
    }
    Ok(())
}

fn all(counting: bool) -> Result<Figures, String> {
    let mut rows = Vec::new();
    for group in &GROUPS {
        eprintln!("bench: {}", group.name);
        rows.push(row(group, counting)?);
    }
    eprintln!("bench: long numbers");
    let numbers = NUMBERS.iter().map(|group| row(group, counting)).collect::<Result<_, _>>()?;
    eprintln!("bench: acceptance and stack");
    let acceptance = sheets::sheets().into_iter().map(acceptance).collect();
    let mut buffers = Buffers::new();
    let mut depth = |sample: &Sample| {
        stack::depth(&mut || {
            library::check(sample, &mut buffers);
        })
    };
    let stack = sheets::deepest().into_iter().map(|(name, sample)| (name, depth(&sample))).chain(json::depths()).collect();
    eprintln!("bench: pairs of schemas");
    let pairs = pairs::compared();
    let openings = openings::rows(counting);
    let messages = messages::rows(counting);
    let json = json::rows(counting);
    let books = books::rows(counting);
    Ok(Figures { rows, numbers, acceptance, pairs, openings, messages, json, stack, books })
}

fn row(group: &'static Group, counting: bool) -> Result<Row, String> {
    let listed = (group.make)(group.listed);
    let points = group.sizes.iter().map(|&size| (group.make)(size)).map(|sample| point(group.name, &sample)).collect::<Result<_, _>>()?;
    let count = |side, size: usize| measure::instructions(&["once", group.name, side, &size.to_string()]);
    let ends = [group.sizes[group.sizes.len() / 2], group.sizes[group.sizes.len() - 1]];
    Ok(Row {
        group,
        bytes: listed.bytes(),
        instructions: counting.then(|| Side::ALL.map(|(side, _)| count(side, group.listed))),
        ends: counting.then(|| ends.map(|size| ((group.make)(size).bytes(), count("library", size)))),
        points,
    })
}

/// The bytes of a sample and the times of the three sides, after a look whether they are measured on the same thing.
fn point(group: &str, sample: &Sample) -> Result<Point, String> {
    if rust::build(sample).as_ref() != modelled(sample).as_ref() {
        return Err(format!("{group}: what is built differs from what the model reads"));
    }
    Ok(Point { bytes: sample.bytes(), times: Side::ALL.map(|(_, side)| time(sample, side)) })
}

/// What the model reads, in the Rust's types.
fn modelled(sample: &Sample) -> Option<rust::Built> {
    let schemas = convert::schemas(&decode_schema(&sample.schema)?);
    let rule = match decode_rule(&sample.rule)? {
        trees::Sheet::Rule(rule) => reader::Rule::Rule(convert::rule(&rule)),
        trees::Sheet::Template(value) => reader::Rule::Template(convert::value(&value)),
    };
    Some(rust::Built { schemas: reader::Schemas { fields: schemas.fields, args: schemas.args }, rule })
}

fn acceptance(sheet: sheets::Sheet) -> Acceptance {
    let library = measure::time(|| library::accepts(&sheet.bytes));
    let building = measure::time(|| match sheet.bytes.first() {
        Some(b'H') => std::hint::black_box(reader::schemas(&sheet.bytes)).is_some(),
        _ => std::hint::black_box(reader::rule(&sheet.bytes)).is_some(),
    });
    Acceptance { name: sheet.name, bytes: sheet.bytes.len(), library, building }
}
