//! `memory`: cases through the C functions with every slice an allocation of exactly its length, for a run under valgrind's memcheck.
//!
//! The two buffers that are written hold nothing yet, so that whatever depends on their contents shows.

use crate::library::entry::{numbers, Entry};
use crate::library::raw;
use crate::readings::instants::answer;
use crate::runs::instants::read;
use crate::runs::vectors;
use cases::books::{self, BookCase};
use cases::case::Case;
use cases::edges::edges;
use cases::generate::names::STOCK;
use cases::generate::profiles;
use cases::instants;
use cases::json;
use cases::keys::{self, KeyCase};
use cases::limits::{EXPLAIN_RESULT_BYTES, RESULT_BYTES};
use cases::longest::longest;
use cases::openings::{self, OpeningsCase};
use cases::random::Random;
use cases::tables::{self, LoadCase};
use cases::walls::{self, WallCase};
use cases::widens::{self, WidensCase};
use model::Converted;

/// The known edges, the list of answers, then so many generated cases, and the same of keys, of tables, of loads, of instants, of pairs of schemas, of books, of wall
/// sheets, of openings, and of JSON texts and sheets to be written as such; an error is a difference from the model.
pub fn memory(list: &str, cases: u64, seed: u64) -> Result<(), String> {
    let known: Vec<Case> = edges().into_iter().chain(longest()).collect();
    for case in &known {
        one(case)?;
    }
    let listed = vectors::read(list)?;
    for case in &listed {
        one(case)?;
    }
    for number in 0..cases {
        let (_, case) = profiles::case(&mut Random::of_case(seed, number), &STOCK);
        one(&case).map_err(|trouble| format!("case {number} of seed {seed}: {trouble}"))?;
    }
    let known_keys = keys::edges::edges();
    for case in &known_keys {
        one_key(case)?;
    }
    for number in 0..cases {
        let (_, case) = keys::generate::case(&mut Random::of_case(seed, number));
        one_key(&case).map_err(|trouble| format!("key {number} of seed {seed}: {trouble}"))?;
    }
    let (known_tables, known_loads) = (tables::edges::edges(), tables::edges::loads());
    for case in &known_tables {
        one(case)?;
    }
    for case in &known_loads {
        one_load(case)?;
    }
    for number in 0..cases {
        let mut random = Random::of_case(seed, number);
        let (_, case) = tables::generate::case(&mut random);
        let load = tables::generate::load(&mut random);
        one(&case).and_then(|()| one_load(&load)).map_err(|trouble| format!("table {number} of seed {seed}: {trouble}"))?;
    }
    let known_texts = instants::known();
    for text in &known_texts {
        one_instant(text)?;
    }
    for number in 0..cases {
        one_instant(&instants::text(&mut Random::of_case(seed, number)))?;
    }
    let known_pairs = widens::edges::edges();
    for case in &known_pairs {
        one_pair(case)?;
    }
    for number in 0..cases {
        let (_, case) = widens::generate::case(&mut Random::of_case(seed, number));
        one_pair(&case).map_err(|trouble| format!("pair {number} of seed {seed}: {trouble}"))?;
    }
    let known_books = books::edges::edges();
    for case in &known_books {
        one_book(case)?;
    }
    // A book has many sheets.
    let books = cases / 20;
    for number in 0..books {
        let (_, case) = books::generate::case(&mut Random::of_case(seed, number));
        one_book(&case).map_err(|trouble| format!("book {number} of seed {seed}: {trouble}"))?;
    }
    let known_walls = walls::edges::edges();
    for case in &known_walls {
        one_wall(case)?;
    }
    for number in 0..books {
        let (_, case) = walls::generate::case(&mut Random::of_case(seed, number));
        one_wall(&case).map_err(|trouble| format!("wall sheet {number} of seed {seed}: {trouble}"))?;
    }
    let known_openings = openings::edges::edges();
    for case in &known_openings {
        one_openings(case)?;
    }
    for number in 0..books {
        let (_, case) = openings::generate::case(&mut Random::of_case(seed, number));
        one_openings(&case).map_err(|trouble| format!("openings {number} of seed {seed}: {trouble}"))?;
    }
    let known_json = json::edges::edges();
    for case in &known_json {
        one_conversion(raw::from_json, model::from_json, &case.text)?;
    }
    for number in 0..cases {
        let mut random = Random::of_case(seed, number);
        let (text, sheet) = (json::generate::case(&mut random).1.text, json::generate::sheet(&mut random));
        let held =
            one_conversion(raw::from_json, model::from_json, &text).and_then(|()| one_conversion(raw::to_json, model::to_json, &sheet));
        held.map_err(|trouble| format!("text {number} of seed {seed}: {trouble}"))?;
    }
    println!("{} known edges, {} cases of {list}, {cases} generated ones (seed {seed}): answers as the model's", known.len(), listed.len());
    println!("{} known edges of keys, {cases} generated ones (seed {seed}): answers as the model's", known_keys.len());
    println!(
        "{} known edges of tables, {} known loads, {cases} generated ones of each (seed {seed}): answers as the model's",
        known_tables.len(),
        known_loads.len()
    );
    println!("{} known instants, {cases} generated ones (seed {seed}): answers as the model's", known_texts.len());
    println!("{} known pairs of schemas, {cases} generated ones (seed {seed}): answers as the model's", known_pairs.len());
    println!("{} known books, {books} generated ones (seed {seed}): answers as the model's", known_books.len());
    println!("{} known wall sheets, {books} generated ones (seed {seed}): answers as the model's", known_walls.len());
    println!("{} known openings, {books} generated ones (seed {seed}): answers as the model's", known_openings.len());
    println!("{} known JSON texts, {cases} generated ones and as many sheets (seed {seed}): answers as the model's", known_json.len());
    Ok(())
}

/// Fields of exactly their length, and one byte less.
fn one_instant(text: &[u8]) -> Result<(), String> {
    let fields = read(text)?;
    for room in [RESULT_BYTES, RESULT_BYTES - 1] {
        let (found, wanted) = (raw::fresh_instant(text, room), answer(fields, room));
        if found != wanted {
            return Err(format!("{:?} is answered {found:?}, not {wanted:?}", String::from_utf8_lossy(text)));
        }
    }
    Ok(())
}

/// With room for what is made, and with a byte less.
fn one_conversion(function: raw::Converts, model: fn(&[u8], usize) -> Converted, input: &[u8]) -> Result<(), String> {
    let length = model(input, usize::MAX).map_or(0, |made| made.len());
    for room in [length, length.saturating_sub(1)] {
        let (found, expected) = (raw::fresh_convert(function, input, room), model(input, room));
        let numbers = match &expected {
            Ok(made) => [0, made.len() as u32],
            Err(number) => [*number, 0],
        };
        if found != (expected, numbers) {
            return Err(format!("with room for {room} bytes {} is answered {found:?}", input.escape_ascii()));
        }
    }
    Ok(())
}

fn one_load(case: &LoadCase) -> Result<(), String> {
    let (number, buffer) = case.answer();
    let found = raw::fresh_load(&case.table, case.buffer_len);
    let wanted = (number, (number == 0).then(|| buffer[..case.table.len()].to_vec()));
    if found == wanted {
        Ok(())
    } else {
        Err(format!("a load is answered {found:?}, not {wanted:?}"))
    }
}

fn one_pair(case: &WidensCase) -> Result<(), String> {
    let expected = model::widens(&case.first, &case.second, case.result_len);
    let found = raw::fresh_widens(case);
    let wanted = (expected[0], (case.result_len >= RESULT_BYTES).then_some(expected));
    if found == wanted {
        Ok(())
    } else {
        Err(format!("a pair of schemas is answered {found:?}, not {wanted:?}"))
    }
}

fn one_book(case: &BookCase) -> Result<(), String> {
    let expected = model::tally(&case.call());
    let found = raw::fresh_tally(case);
    let wanted = (expected[0] as u32, (case.result_len >= model::TALLY_BYTES).then_some(expected));
    if found == wanted {
        Ok(())
    } else {
        Err(format!("a book is answered {found:?}, not {wanted:?}"))
    }
}

fn one_wall(case: &WallCase) -> Result<(), String> {
    let (numbers, pages) = model::wall(&case.call());
    let found = raw::fresh_wall(case);
    let wanted = (numbers[0] as u32, (case.book.result_len >= model::WALL_BYTES).then_some(numbers), pages);
    if found == wanted {
        Ok(())
    } else {
        Err(format!("a wall sheet is answered {:?}, not {numbers:?}, or its pages differ", found.1))
    }
}

fn one_openings(case: &OpeningsCase) -> Result<(), String> {
    let expected = model::openings(&case.call());
    let found = raw::fresh_openings(case);
    let wanted = (expected.0[0], (case.result_len >= model::OPENINGS_BYTES).then_some(expected));
    if found == wanted {
        Ok(())
    } else {
        Err(format!("openings are answered {found:?}, not {wanted:?}"))
    }
}

fn one_key(case: &KeyCase) -> Result<(), String> {
    let expected = model::check_key(&case.call());
    let found = raw::fresh_key(case);
    let wanted = (expected.number, (case.result_len >= RESULT_BYTES).then(|| numbers(&expected)));
    if found == wanted {
        Ok(())
    } else {
        Err(format!("a key is answered {found:?}, not {wanted:?}"))
    }
}

/// Every entry; a case with a short scratch gets a short result.
fn one(case: &Case) -> Result<(), String> {
    let answer = model::check(&case.call());
    let is_wide = case.scratch_len >= cases::limits::MIN_SCRATCH_WORDS;
    for entry in Entry::all(case) {
        let result = entry.result_bytes() - usize::from(!is_wide);
        let expected = entry.answer(case, &answer);
        let marks = entry.marks(case, &expected);
        let found = raw::fresh(case, *entry, result);
        let wanted = (expected.number, is_wide.then(|| numbers(&expected)), expected.path, marks);
        if found != wanted {
            return Err(format!("{entry:?} answers {found:?}, not {wanted:?}"));
        }
    }
    told(case, is_wide)
}

/// The message in a buffer of its length, and in one that is a byte shorter.
fn told(case: &Case, is_wide: bool) -> Result<(), String> {
    let (answer, message) = model::explain(&case.call());
    let message = message.unwrap_or_default().into_bytes();
    for length in [message.len(), message.len().saturating_sub(1)] {
        let found = raw::fresh_explain(case, length, EXPLAIN_RESULT_BYTES - usize::from(!is_wide));
        let said = (is_wide && message.len() <= length).then(|| message.clone());
        let wanted = (answer.number, is_wide.then(|| numbers(&answer)), said);
        if found != wanted {
            return Err(format!("with a buffer of {length} bytes it is explained as {found:?}, not {wanted:?}"));
        }
    }
    Ok(())
}
