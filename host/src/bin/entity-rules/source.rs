//! Rules in JSON: their sheets, and where in the text the entries of these come from.

use crate::files::{Fault, FaultyPart, NoSheet};
use crate::printed::visible;
use crate::region::{Aim, Position, Region};
use entity_rules::json::{self, Origin, origins, within};
use entity_rules::{JsonError, RuleSheet, rule_from_json};
use std::ops::Range;
use std::path::Path;
use std::rc::Rc;

/// How many characters of a line are shown at most before the part at fault, of that part, and after it.
const SHOWN: [usize; 3] = [72, 64, 48];

/// A rule in JSON, or a part of a definition.
pub struct Source {
    text: Rc<[u8]>,
    sheet: RuleSheet,
    /// By entry; empty where the crate's reading finds none, which the library's would contradict.
    origins: Vec<Origin>,
}

/// Whether a file is meant as JSON: by its name, or since an object begins it, as no sheet is.
pub fn is_json(file: &Path, bytes: &[u8]) -> bool {
    let first = bytes.iter().find(|byte| !byte.is_ascii_whitespace());
    file.extension().is_some_and(|end| end == "json") || first == Some(&b'{')
}

impl Source {
    /// The rule of a text, or why there is none.
    pub fn read(file: &Path, text: Vec<u8>) -> Result<Self, NoSheet> {
        let sheet = rule_from_json(&text).map_err(|error| refused(file, &text, &error))?;
        let origins = origins(&text).unwrap_or_default();
        Ok(Self {
            text: text.into(),
            sheet,
            origins,
        })
    }

    /// A part of a larger text.
    pub fn of_part(text: &Rc<[u8]>, sheet: &RuleSheet, origins: &[Origin]) -> Self {
        Self {
            text: Rc::clone(text),
            sheet: sheet.clone(),
            origins: origins.to_vec(),
        }
    }

    pub fn sheet(&self) -> &[u8] {
        &self.sheet
    }

    /// Where in the text an entry comes from, or this part of it.
    pub fn region(&self, place: u32, aim: Aim) -> Option<Region> {
        Some(Region::new(&self.text, self.bytes(place, aim)?))
    }

    /// The line of the text with that.
    pub fn shown(&self, place: u32, aim: Aim) -> Option<Shown> {
        Some(Shown::new(&self.text, self.bytes(place, aim)?))
    }

    fn bytes(&self, place: u32, aim: Aim) -> Option<Range<usize>> {
        let origin = self
            .origins
            .get(usize::try_from(place).ok()?.checked_sub(1)?)?;
        let Origin { span, texts } = origin.clone();
        let [first, second] = texts;
        Some(match aim {
            Aim::Entry => span,
            Aim::First => first.unwrap_or(span),
            Aim::Second => second.unwrap_or(span),
            Aim::Part { before, length } => {
                within(&self.text, span, before..before.saturating_add(length))
            }
        })
    }
}

/// Why a text is not a rule, with the place where the crate finds that.
fn refused(file: &Path, text: &[u8], error: &JsonError) -> NoSheet {
    NoSheet::Refused {
        refusal: error.refusal(),
        fault: error.fault().map(|fault| fault_in(file, text, fault)),
    }
}

/// A fault of a text, with its line.
pub fn fault_in(file: &Path, text: &[u8], fault: &json::Fault) -> Fault {
    Fault {
        file: file.to_owned(),
        at: Position {
            line: fault.line,
            column: fault.column,
        },
        part: FaultyPart::Line(Box::new(Shown::new(text, fault.byte..fault.byte))),
        byte: fault.byte,
        told: fault.reason.clone(),
    }
}

/// A line of a text, in three parts, of which the second is at fault; as it is printed, and cut where it is long.
#[derive(Clone)]
pub struct Shown {
    pub before: String,
    pub part: String,
    pub after: String,
}

impl Shown {
    fn new(text: &[u8], bytes: Range<usize>) -> Self {
        let [before, rest] = match text.split_at_checked(bytes.start) {
            Some((before, rest)) => [before, rest],
            None => [text, &[]],
        };
        let before = before.rsplit(|byte| *byte == b'\n').next();
        let rest = rest.split(|byte| *byte == b'\n').next();
        let rest = rest.unwrap_or_default().trim_ascii_end();
        let part = rest.len().min(bytes.len());
        let (part, after) = rest.split_at_checked(part).unwrap_or_default();
        let [most_before, most, most_after] = SHOWN;
        Self {
            before: end(before.unwrap_or_default().trim_ascii_start(), most_before),
            part: start(part, most),
            after: start(after, most_after),
        }
    }
}

/// So many characters at the start.
fn start(bytes: &[u8], most: usize) -> String {
    let text = String::from_utf8_lossy(bytes);
    match text.char_indices().nth(most) {
        Some((at, _)) => format!("{}...", visible(text.get(..at).unwrap_or_default())),
        None => visible(&text),
    }
}

/// So many characters at the end.
fn end(bytes: &[u8], most: usize) -> String {
    let text = String::from_utf8_lossy(bytes);
    let last = most.checked_sub(1);
    match last.and_then(|last| text.char_indices().rev().nth(last)) {
        Some((at, _)) if at > 0 => format!("...{}", visible(text.get(at..).unwrap_or_default())),
        _ => visible(&text),
    }
}

#[cfg(test)]
mod tests {
    use super::*;

    fn shown(text: &str, bytes: Range<usize>) -> [String; 3] {
        let Shown {
            before,
            part,
            after,
        } = Shown::new(text.as_bytes(), bytes);
        [before, part, after]
    }

    #[test]
    fn json_is_told_by_name_or_first_byte() {
        let is_json = |file: &str, bytes: &[u8]| is_json(Path::new(file), bytes);
        assert!(is_json("a.json", b""));
        assert!(is_json("a.rule", b" \n\t{"));
        assert!(is_json("-", b"{}"));
        assert!(!is_json("a.rule", b"R,-,-,\n"));
        assert!(!is_json("json", b"T\n"));
    }

    #[test]
    fn a_line_is_shown_around_the_part() {
        assert_eq!(shown("a\n  bcd e\nf", 5..6), ["b", "c", "d e"]);
        assert_eq!(shown("a\n  bcd e\nf", 5..99), ["b", "cd e", ""]);
        assert_eq!(shown("a {\r\n}", 2..6), ["a ", "{", ""]);
        assert_eq!(shown("a\n", 2..2), ["", "", ""]);
        assert_eq!(shown("a", 9..9), ["a", "", ""]);
        let long = "é".repeat(200);
        let [before, part, after] = shown(&long, 160..340);
        assert_eq!(before, format!("...{}", "é".repeat(72)));
        assert_eq!(part, format!("{}...", "é".repeat(64)));
        assert_eq!(after, "é".repeat(30));
    }
}
