//! The table of sentences in docs/FORMAT.md, "Messages", is that of the known messages, which library, model and Rust agree on.

use cases::messages::edges::edges;
use model::explain;

const FORMAT: &str = include_str!("../../../../docs/FORMAT.md");

/// Words in the table that stand for a text.
const WORDS: [&str; 13] =
    ["DEPTH", "JSON", "TEXT", "SEGMENT", "WALKED", "REST", "TAG", "CONTENT", "KIND", "READER", "NAMES", "UNESCAPED", "BIND"];

fn section() -> &'static str {
    let (_, rest) = FORMAT.split_once("\n## Messages\n").expect("the section");
    rest.split_once("\n## ").expect("its end").0
}

/// The rows of the table: number and detail, and the sentence with `*` for each text.
fn rows() -> Vec<((u32, u32), String)> {
    let block = section().split("```\n").nth(1).expect("the table");
    let (_, tail) = section().split_once("| TAIL | ``").expect("the tail");
    let (tail, _) = tail.split_once("`` |").expect("its end");
    let mut number = (0, 0);
    let mut rows = Vec::new();
    for line in block.lines() {
        let (head, sentence) = line.split_at(6);
        if let Some((whole, detail)) = head.trim().split_once('.') {
            number = (whole.parse().expect("a number"), detail.parse().expect("a detail"));
        } else if !head.trim().is_empty() {
            number = (head.trim().parse().expect("a number"), 0);
        }
        let sentence = WORDS.iter().fold(sentence.replace("TAIL", tail), |sentence, word| sentence.replace(word, "*"));
        let words = sentence.split("   ").map(str::to_owned);
        rows.extend(words.map(|sentence| (number, sentence)));
    }
    rows
}

/// Whether a text is the pattern with some text for each `*`.
fn fits(pattern: &str, text: &str) -> bool {
    match pattern.split_once('*') {
        None => pattern == text,
        Some((before, after)) => {
            text.strip_prefix(before).is_some_and(|rest| (0..=rest.len()).any(|at| rest.is_char_boundary(at) && fits(after, &rest[at..])))
        }
    }
}

#[test]
fn every_row_has_a_known_message_and_every_known_message_a_row() {
    let rows = rows();
    assert_eq!(rows.len(), 34);
    let mut met = vec![false; rows.len()];
    for (case, message) in edges() {
        let (answer, _) = explain(&case.call());
        let number = (answer.number, answer.detail);
        let row = rows.iter().position(|(known, sentence)| *known == number && fits(sentence, &message));
        met[row.unwrap_or_else(|| panic!("{number:?} {message}"))] = true;
    }
    let missed: Vec<_> = rows.iter().zip(met).filter(|(_, met)| !met).collect();
    assert!(missed.is_empty(), "{missed:?}");
}

#[test]
fn the_format_lists_what_each_kind_may_read() {
    for (case, message) in edges() {
        let Some((_, list)) = message.split_once("available here; ") else { continue };
        let (reader, names) = list.split_once(" may read ").expect("a list of names");
        let row = format!("\n| {} | {reader} | `{names}` |\n", case.kind);
        assert!(section().contains(&row), "{row}");
    }
}
