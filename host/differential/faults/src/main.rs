//! Asks each faulty model until it answers otherwise than the library, or has another message than the Rust: on the known edges, on messages, on
//! generated cases, on the published samples, on keys, on rule books and their wall sheets, on openings, on tables, and last on rules as JSON and back: `faults
//! [CASES] [SEED]`.

use cases::books::{self, BookCase};
use cases::case::Case;
use cases::edges::edges;
use cases::generate::{names::STOCK, profiles};
use cases::json;
use cases::keys::{self, KeyCase};
use cases::longest::longest;
use cases::messages;
use cases::openings::{self, Opened, OpeningsCase};
use cases::random::Random;
use cases::tables::{self, LoadCase};
use cases::walls::{self, Printed, WallCase};
use harness::library::{self, lent::Extent};
use harness::runs::agreement::rust_message;
use harness::runs::published::sample_cases;
use model::{Answer, BookCall, Call, Converted, KeyCall, OpeningsCall, TallyNumbers, WallCall};
use std::panic::{catch_unwind, AssertUnwindSafe};
use std::process::ExitCode;

/// A model with a fault in it.
#[derive(Clone, Copy)]
struct Faulty {
    answer: fn(&Call) -> Answer,
    key_answer: fn(&KeyCall) -> Answer,
    load_answer: fn(&[u8], usize) -> (u32, Vec<u8>),
    tally_answer: fn(&BookCall) -> TallyNumbers,
    wall_answer: fn(&WallCall) -> Printed,
    openings_answer: fn(&OpeningsCall) -> Opened,
    message: fn(&Call) -> Option<String>,
    from_json: fn(&[u8], usize) -> Converted,
    to_json: fn(&[u8], usize) -> Converted,
}

/// What the models are asked.
enum Question {
    Case(Case),
    /// A case, and the Rust's message of its defect.
    Message(Case, String),
    Key(KeyCase),
    Load(LoadCase),
    Book(BookCase),
    Wall(WallCase),
    Openings(OpeningsCase),
    /// A JSON text.
    Text(Vec<u8>),
    /// A rule sheet that is to be written as JSON.
    Sheet(Vec<u8>),
}

include!(concat!(env!("OUT_DIR"), "/faults.rs"));

fn main() -> ExitCode {
    let number = |at: usize, default: u64| std::env::args().nth(at).map_or(Some(default), |text| text.parse().ok());
    let (Some(cases), Some(seed)) = (number(1, 300_000), number(2, 1)) else {
        eprintln!("usage: faults [CASES] [SEED]");
        return ExitCode::from(2);
    };
    // A faulty model may panic, which is a way to be found.
    std::panic::set_hook(Box::new(|_| {}));
    let mut hidden: Vec<_> = FAULTS.iter().collect();
    for (which, question) in questions(cases, seed) {
        hidden.retain(|(name, faulty)| match difference(&question, *faulty) {
            None => true,
            Some(difference) => {
                println!("{name}\n    {which}: {difference}");
                false
            }
        });
        if hidden.is_empty() {
            break;
        }
    }
    for (name, _) in &hidden {
        println!("NOT FOUND: {name}");
    }
    println!("{} of {} faults found", FAULTS.len() - hidden.len(), FAULTS.len());
    if hidden.is_empty() {
        ExitCode::SUCCESS
    } else {
        ExitCode::FAILURE
    }
}

/// All questions, each with the words for it: messages, a tenth as many as cases; so many generated cases, as many keys, a twentieth as many books and openings, known wall sheets, as many cases under a table, as many
/// tables to load, and a tenth as many JSON texts and sheets to be written as such.
fn questions(cases: u64, seed: u64) -> impl Iterator<Item = (String, Question)> {
    let named = |name: &'static str| move |case| (name.to_owned(), Question::Case(case));
    let known = edges().into_iter().chain(longest()).map(named("a known edge"));
    let known_messages = messages::edges::edges().into_iter().map(|(case, _)| case);
    let message = move |number| messages::generate::case(&mut Random::of_case(seed, number)).1;
    let told = known_messages.chain((0..cases / 10).map(message)).filter_map(|case| {
        let message = rust_message(&case)?;
        Some(("a message".to_owned(), Question::Message(case, message)))
    });
    let made = move |number| {
        (format!("case {number} of seed {seed}"), Question::Case(profiles::case(&mut Random::of_case(seed, number), &STOCK).1))
    };
    let samples = sample_cases().into_iter().map(named("a sample"));
    let known_keys = keys::edges::edges().into_iter().map(|case| ("a known edge of keys".to_owned(), Question::Key(case)));
    let key =
        move |number| (format!("key {number} of seed {seed}"), Question::Key(keys::generate::case(&mut Random::of_case(seed, number)).1));
    let known_books = books::edges::edges().into_iter().map(|case| ("a known book".to_owned(), Question::Book(case)));
    let book = move |number| {
        (format!("book {number} of seed {seed}"), Question::Book(books::generate::case(&mut Random::of_case(seed, number)).1))
    };
    let known_walls = walls::edges::edges().into_iter().chain([walls::edges::large()]);
    let known_walls = known_walls.map(|case| ("a known wall sheet".to_owned(), Question::Wall(case)));
    let known_openings = openings::edges::edges().into_iter().map(|case| ("a known case of openings".to_owned(), Question::Openings(case)));
    let opening = move |number| {
        let case = openings::generate::case(&mut Random::of_case(seed, number)).1;
        (format!("openings {number} of seed {seed}"), Question::Openings(case))
    };
    let known_tables = tables::edges::edges().into_iter().map(named("a known edge of tables"));
    let known_loads = tables::edges::loads().into_iter().map(|case| ("a known load".to_owned(), Question::Load(case)));
    let table = move |number| {
        let mut random = Random::of_case(seed, number);
        let case = tables::generate::case(&mut random).1;
        let load = tables::generate::load(&mut random);
        [(format!("table {number} of seed {seed}"), Question::Case(case)), (format!("load {number} of seed {seed}"), Question::Load(load))]
    };
    let known_texts = json::edges::edges().into_iter().map(|case| ("a known text".to_owned(), Question::Text(case.text)));
    let text = move |number| {
        let mut random = Random::of_case(seed, number);
        let (text, sheet) = (json::generate::case(&mut random).1.text, json::generate::sheet(&mut random));
        [
            (format!("text {number} of seed {seed}"), Question::Text(text)),
            (format!("sheet {number} of seed {seed}"), Question::Sheet(sheet)),
        ]
    };
    let texts = known_texts.chain((0..cases / 10).flat_map(text));
    let cases_and_keys = known.chain(told).chain((0..cases).map(made)).chain(samples).chain(known_keys).chain((0..cases).map(key));
    let cases_and_keys = cases_and_keys.chain(known_books).chain((0..cases / 20).map(book)).chain(known_walls);
    let cases_and_keys = cases_and_keys.chain(known_openings).chain((0..cases / 20).map(opening));
    cases_and_keys.chain(known_tables).chain(known_loads).chain((0..cases).flat_map(table)).chain(texts)
}

/// In what the faulty model and the library differ, if they do.
fn difference(question: &Question, faulty: Faulty) -> Option<String> {
    let held = || match question {
        Question::Case(case) => library::checks::hold(case, &(faulty.answer)(&case.call()), Extent::Some),
        Question::Message(case, message) => match (faulty.message)(&case.call()) {
            Some(found) if found == *message => library::messages::hold(case, &(faulty.answer)(&case.call()), Some(&found), Extent::Some),
            found => Err(format!("the faulty model's message is {found:?}, the Rust's {message:?}")),
        },
        Question::Key(case) => library::keys::hold(case, &(faulty.key_answer)(&case.call()), Extent::Some),
        Question::Book(case) => library::books::hold(case, &(faulty.tally_answer)(&case.call()), Extent::Some),
        Question::Wall(case) => library::walls::hold(case, &(faulty.wall_answer)(&case.call()), Extent::Some),
        Question::Openings(case) => library::openings::hold(case, &(faulty.openings_answer)(&case.call()), Extent::Some),
        Question::Text(text) => library::json::hold_text(text, |room| (faulty.from_json)(text, room), Extent::All),
        Question::Sheet(sheet) => library::json::hold_sheet(sheet, |room| (faulty.to_json)(sheet, room), Extent::All),
        Question::Load(case) => {
            let (number, buffer) = (faulty.load_answer)(&case.table, case.buffer_len);
            let loaded = if number == 0 { case.table.as_slice() } else { &[] };
            match buffer.starts_with(loaded) && buffer[loaded.len()..].iter().all(|byte| *byte == 0) {
                true => library::tables::hold(case, number),
                false => Err("the faulty model leaves other bytes in the buffer".to_owned()),
            }
        }
    };
    match catch_unwind(AssertUnwindSafe(held)) {
        Ok(held) => held.err(),
        Err(_) => Some("the faulty model panics".to_owned()),
    }
}
