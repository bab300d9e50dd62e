//! An answer in words.

use model::Answer;

/// An answer as the program `rulecheck` prints it, without the line's end.
pub fn line(answer: &Answer) -> String {
    String::from_utf8_lossy(&printed(answer)).into_owned()
}

/// The bytes that the program `rulecheck` prints, without the line's end.
pub fn printed(answer: &Answer) -> Vec<u8> {
    let numbers = [answer.number, answer.family, answer.detail, answer.place, answer.over_place, answer.passed];
    let mut bytes = Vec::new();
    for number in numbers {
        bytes.extend_from_slice(format!("{number},").as_bytes());
    }
    bytes.extend_from_slice(&answer.path);
    bytes
}
