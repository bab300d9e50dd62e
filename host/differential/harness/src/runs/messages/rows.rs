//! How often each row of the table of sentences came, a row for each word that the checker has and no input gives.

use model::Answer;
use std::collections::BTreeMap;
use std::fmt;

/// Number, detail, and which of the number's and detail's sentences it is.
type Row = (u32, u32, &'static str);

#[derive(Default)]
pub struct Rows {
    counts: BTreeMap<Row, u64>,
    messages: u64,
    longest: usize,
}

const OPERATORS: [&str; 4] = ["compare", "truthy", "for_all", "for_any"];
const READERS: [&str; 8] = ["kind 1", "kind 2", "kind 3", "kind 4", "kind 5", "kind 6", "kind 7", "kind 8"];
/// The kinds of a field, from 1 on.
const KINDS: [&str; 12] = ["string", "integer", "number", "boolean", "enum", "array", "object", "json", "ref", "map", "union", "binary64"];

impl Rows {
    pub fn count(&mut self, kind: u64, answer: &Answer, message: &str) {
        *self.counts.entry((answer.number, answer.detail, which(kind, answer, message))).or_default() += 1;
        self.messages += 1;
        self.longest = self.longest.max(message.len());
    }

    /// The rows that can occur and did not.
    pub fn missing(&self) -> Vec<Row> {
        all().into_iter().filter(|row| !self.counts.contains_key(row)).collect()
    }
}

/// Which of its sentences a message is. The words are looked for where names can imitate them: a count needs no more.
fn which(kind: u64, answer: &Answer, message: &str) -> &'static str {
    let among = |words: &[&'static str], about: &dyn Fn(&str) -> String| {
        let found = words.iter().find(|word| message.contains(&about(word)));
        found.copied().unwrap_or("none of them")
    };
    match (answer.number, answer.detail) {
        (15, _) => among(&OPERATORS, &|word| word.to_owned()),
        (16, _) => among(&["all", "any"], &|word| format!("'{word}' must")),
        (18, 2) => among(&["field", "argument"], &|word| format!(" cannot resolve: unknown {word} '")),
        (18, 8) if message.ends_with("' and 'content'") => "a tag `value`",
        (18, 8) if message.ends_with("it carries '' and 'value'") => "no tag",
        (18, 8) => "a tag",
        (18, 9 | 10) => among(&KINDS, &|word| format!("' is a {word} field, so '")),
        (18, 11 | 12) => READERS[kind as usize - 1],
        (22, 3) => among(&KINDS, &|word| format!("a {word} field has no member '")),
        (22, 4) => among(&KINDS, &|word| format!("it is a {word} field, and ")),
        _ => "",
    }
}

/// Every row that can occur.
fn all() -> Vec<Row> {
    let alone = [(11, 0), (12, 0), (13, 0), (14, 0), (17, 1), (17, 2), (18, 1), (18, 3), (18, 4), (18, 5), (18, 6), (18, 7)];
    let others = [(19, 0), (20, 1), (20, 2), (21, 0), (22, 1), (22, 2), (22, 5)];
    let alone = alone.into_iter().chain(others).map(|(number, detail)| (number, detail, ""));
    let of = |number: u32, detail: u32, words: Vec<&'static str>| words.into_iter().map(move |word| (number, detail, word));
    let kinds = |without: &[&str]| KINDS.into_iter().filter(|kind| !without.contains(kind)).collect();
    alone
        .chain(of(15, 0, OPERATORS.to_vec()))
        .chain(of(16, 0, vec!["all", "any"]))
        .chain(of(18, 2, vec!["field", "argument"]))
        .chain(of(18, 8, vec!["a tag", "a tag `value`", "no tag"]))
        .chain(of(18, 9, kinds(&["string", "array", "object", "json", "map", "union"])))
        .chain(of(18, 10, kinds(&["object", "json"])))
        .chain(of(18, 11, READERS.to_vec()))
        .chain(of(18, 12, READERS.to_vec()))
        .chain(of(22, 3, kinds(&["object", "json", "union"])))
        .chain(of(22, 4, kinds(&["array", "map"])))
        .collect()
}

impl fmt::Display for Rows {
    fn fmt(&self, out: &mut fmt::Formatter<'_>) -> fmt::Result {
        writeln!(out, "number detail sentence           messages")?;
        for ((number, detail, which), count) in &self.counts {
            writeln!(out, "{number:6} {detail:6} {which:15} {count:11}")?;
        }
        write!(out, "{} messages in {} rows, the longest {} bytes", self.messages, self.counts.len(), self.longest)
    }
}

#[cfg(test)]
mod tests {
    use super::Rows;
    use cases::messages::edges::edges;

    #[test]
    fn the_known_messages_have_every_row() {
        let mut rows = Rows::default();
        for (case, _) in edges() {
            let (answer, message) = model::explain(&case.call());
            rows.count(case.kind, &answer, &message.unwrap_or_default());
        }
        assert_eq!(rows.missing(), []);
        assert_eq!(rows.counts.keys().find(|row| row.2 == "none of them"), None);
    }
}
