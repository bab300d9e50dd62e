//! The model answers every case as it must by the way the case was made: known edges, and some random cases. The library and the Rust are not asked here.

use cases::case::Case;
use cases::generate::{names::STOCK, profiles};
use cases::random::Random;
use cases::{books, edges, json, keys, longest, marks, messages, openings, slips, tables, walls, widens};
use model::{check, check_key, decode_rule, tally, wall, Answer};

const GENERATED: u64 = 1_000;

/// So many generators of chance, one for each case.
fn randoms(count: u64) -> impl Iterator<Item = Random> {
    (0..count).map(|number| Random::of_case(1, number))
}

fn hold(case: &Case) -> Answer {
    let answer = check(&case.call());
    assert!(case.expect.allows(answer.number, answer.detail), "{answer:?} for\n{case:?}");
    answer
}

#[test]
fn known_cases_are_answered_as_the_format_says() {
    let known = edges::edges().into_iter().chain(longest::longest());
    for case in known.chain(tables::edges::edges()) {
        hold(&case);
    }
    for (_, case, _) in slips::slips().expect("slips") {
        hold(&case);
    }
}

#[test]
fn generated_cases_are_answered_as_they_were_made() {
    for mut random in randoms(GENERATED) {
        hold(&profiles::case(&mut random, &STOCK).1);
        hold(&tables::generate::case(&mut random).1);
        hold(&marks::generate::case(&mut random).1);
        hold(&messages::generate::case(&mut random).1);
    }
}

#[test]
fn messages_are_those_that_are_known() {
    for (case, known) in messages::edges::edges().into_iter().chain([messages::edges::longest()]) {
        hold(&case);
        assert_eq!(model::explain(&case.call()).1, Some(known), "{case:?}");
    }
}

#[test]
fn constant_conditions_are_those_that_are_known() {
    for (case, known) in marks::edges::edges() {
        let is_accepted = hold(&case).number == 0;
        let sheet = decode_rule(&case.rule).filter(|_| is_accepted);
        assert_eq!(sheet.map_or(Vec::new(), |sheet| model::marks::marks(&sheet)), known, "{case:?}");
    }
}

#[test]
fn keys_are_answered_as_they_were_made() {
    let generated = randoms(GENERATED).map(|mut random| keys::generate::case(&mut random).1);
    for case in keys::edges::edges().into_iter().chain(generated) {
        let answer = check_key(&case.call());
        assert!(case.expect.allows(answer.number, answer.detail), "{answer:?} for\n{case:?}");
    }
}

#[test]
fn tables_are_loaded_as_they_were_made() {
    let generated = randoms(GENERATED).map(|mut random| tables::generate::load(&mut random));
    for case in tables::edges::loads().into_iter().chain(generated) {
        let (number, _) = case.answer();
        assert!(case.expect.is_none_or(|expected| expected == number), "{number} for\n{case:?}");
    }
}

#[test]
fn pairs_of_schemas_are_answered_as_they_were_made() {
    let generated = randoms(GENERATED).map(|mut random| widens::generate::case(&mut random).1);
    for case in widens::edges::edges().into_iter().chain(generated) {
        let numbers = model::widens(&case.first, &case.second, case.result_len);
        assert!(case.expect.allows(&numbers), "{numbers:?} for\n{case:?}");
    }
}

#[test]
fn books_are_tallied_as_they_were_made() {
    let generated = randoms(GENERATED / 20).map(|mut random| books::generate::case(&mut random).1);
    for case in books::edges::edges().into_iter().chain(generated) {
        let numbers = tally(&case.call());
        assert!(case.expect.allows(&numbers), "{numbers:?} for\n{case:?}");
    }
}

#[test]
fn wall_sheets_have_the_pages_that_they_were_made_for() {
    let generated = randoms(GENERATED / 20).map(|mut random| walls::generate::case(&mut random).1);
    for case in walls::edges::edges().into_iter().chain(generated) {
        let (numbers, _) = wall(&case.call());
        assert!(case.allows(numbers), "{numbers:?} for\n{case:?}");
    }
}

#[test]
fn marks_are_opened_as_the_cases_were_made_for() {
    let generated = randoms(GENERATED).map(|mut random| openings::generate::case(&mut random).1);
    for case in openings::edges::edges().into_iter().chain(generated) {
        let answer = model::openings(&case.call());
        assert!(case.expect.allows(&answer), "{answer:?} for\n{case:?}");
    }
}

#[test]
fn texts_are_answered_as_they_were_made_and_read_back() {
    let all = || {
        let made = randoms(5 * GENERATED).map(|mut random| json::generate::case(&mut random).1);
        json::edges::edges().into_iter().chain(made).for_each(|case| hold_text(&case));
    };
    // The model reads 1,024 levels by recursion.
    let thread = std::thread::Builder::new().stack_size(64 << 20).spawn(all).expect("a thread");
    thread.join().expect("every text");
}

fn hold_text(case: &json::TextCase) {
    let answer = model::from_json(&case.text, usize::MAX);
    let told = || answer.as_ref().map(|sheet| String::from_utf8_lossy(sheet));
    assert!(case.expect.allows(&answer), "{:?} for {}", told(), String::from_utf8_lossy(&case.text));
    if let Ok(sheet) = &answer {
        let text = model::to_json(sheet, usize::MAX).expect("JSON");
        assert_eq!(model::from_json(&text, sheet.len()).as_ref(), Ok(sheet));
    }
}
