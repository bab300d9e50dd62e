//! Outcomes as a SARIF 2.1.0 log, which editors and code hosts read: a result for each rule that has a defect, is refused or cannot be read.

use crate::checked::{Checked, Outcome};
use crate::object::Object;
use crate::region::Region;
use crate::report::{explained, not_read, refused, sentence};
use crate::subject::Subject;
use entity_rules::{Defect, DefectNumber, Detail, PathVerdict};
use std::collections::BTreeMap;
use std::ffi::OsStr;
use std::path::Path;

const SCHEMA: &str =
    "https://docs.oasis-open.org/sarif/sarif/v2.1.0/errata01/os/schemas/sarif-schema-2.1.0.json";

/// The results so far, and what their identifiers stand for.
#[derive(Default)]
pub struct Log {
    results: Vec<Object>,
    rules: BTreeMap<String, String>,
}

/// What a result says.
struct Found {
    /// The number of the answer, with its detail.
    id: String,
    /// What that stands for.
    meaning: String,
    message: String,
    region: Option<Region>,
    /// The path of a defect.
    path: Option<String>,
}

impl Log {
    pub fn add(&mut self, checked: &Checked) {
        let (file, found) = match &checked.outcome {
            Outcome::Refused {
                fault: Some(fault), ..
            } => (fault.file.as_os_str(), found(&checked.outcome)),
            Outcome::Unreadable(unreadable) => {
                (unreadable.file.as_os_str(), found(&checked.outcome))
            }
            outcome => (subject(checked.subject), found(outcome)),
        };
        if let Some(found) = found {
            self.results.push(found.result(file));
            self.rules.insert(found.id, found.meaning);
        }
    }

    /// The whole log.
    pub fn text(self) -> String {
        let rules = self.rules.into_iter().map(|(id, meaning)| {
            let mut rule = Object::new();
            rule.text("id", &id);
            rule.object("shortDescription", &message(&meaning));
            rule
        });
        let mut driver = Object::new();
        driver.text("name", "entity-rules");
        driver.text("version", env!("CARGO_PKG_VERSION"));
        driver.list("rules", rules);
        let mut tool = Object::new();
        tool.object("driver", &driver);
        let mut run = Object::new();
        run.object("tool", &tool);
        run.text("columnKind", "unicodeCodePoints");
        run.list("results", self.results.into_iter());
        let mut log = Object::new();
        log.text("$schema", SCHEMA);
        log.text("version", "2.1.0");
        log.list("runs", std::iter::once(run));
        log.line()
    }
}

fn subject(subject: Subject<'_>) -> &OsStr {
    match subject {
        Subject::File(file) | Subject::InBook { book: file, .. } => file.as_os_str(),
        Subject::Key(text) | Subject::Text(text) => text,
    }
}

fn message(text: &str) -> Object {
    let mut message = Object::new();
    message.text("text", text);
    message
}

/// What there is to say of an outcome, unless it is accepted.
fn found(outcome: &Outcome) -> Option<Found> {
    match outcome {
        Outcome::Defect {
            defect, at, blame, ..
        } => {
            let help = blame.as_ref().and_then(|blame| blame.help.as_ref());
            let help = help.map(|help| format!("; {}", help.text()));
            Some(Found {
                id: id(defect),
                meaning: defect.explanation(),
                message: format!("{}{}", sentence(defect), help.unwrap_or_default()),
                region: at.as_ref().map(|spot| *spot.region),
                path: Some(defect.path.clone()),
            })
        }
        Outcome::KeyDefect { fault, blame, .. } => {
            let told = PathVerdict::Defect(*fault).to_string();
            Some(Found {
                id: format!("{}.{}", DefectNumber::Reference.number(), fault.number()),
                message: explained(told.clone(), blame.as_deref()),
                meaning: told,
                region: None,
                path: None,
            })
        }
        Outcome::Refused { refusal, fault } => Some(Found {
            id: refusal.number().to_string(),
            meaning: refusal.to_string(),
            message: refused(*refusal, fault.as_ref()),
            region: fault.as_ref().map(|fault| Region::at(fault.at)),
            path: None,
        }),
        Outcome::Unreadable(unreadable) => Some(Found {
            id: "unreadable".to_owned(),
            meaning: "a file cannot be read".to_owned(),
            message: not_read(unreadable),
            region: None,
            path: None,
        }),
        Outcome::Accepted { .. }
        | Outcome::Marked { .. }
        | Outcome::Instant(_)
        | Outcome::NoInstant => None,
    }
}

fn id(defect: &Defect) -> String {
    let number = defect.number.number();
    match defect.detail {
        Detail::None => number.to_string(),
        detail => format!("{number}.{}", detail.number()),
    }
}

impl Found {
    fn result(&self, file: &OsStr) -> Object {
        let mut artifact = Object::new();
        artifact.text("uri", &uri(Path::new(file)));
        let mut physical = Object::new();
        physical.object("artifactLocation", &artifact);
        if let Some(Region { start, end }) = self.region {
            let mut region = Object::new();
            region.number("startLine", start.line);
            region.number("startColumn", start.column);
            region.number("endLine", end.line);
            region.number("endColumn", end.column);
            physical.object("region", &region);
        }
        let mut location = Object::new();
        location.object("physicalLocation", &physical);
        location.list(
            "logicalLocations",
            self.path.iter().map(|path| {
                let mut logical = Object::new();
                logical.text("fullyQualifiedName", path);
                logical
            }),
        );
        let mut result = Object::new();
        result.text("ruleId", &self.id);
        result.text("level", "error");
        result.object("message", &message(&self.message));
        result.list("locations", std::iter::once(location));
        result
    }
}

/// A file's name as a relative reference or an absolute path of RFC 3986.
fn uri(file: &Path) -> String {
    let mut uri = String::new();
    for &byte in file.as_os_str().as_encoded_bytes() {
        match byte {
            b'/' | b'-' | b'.' | b'_' | b'~' => uri.push(char::from(byte)),
            byte if byte.is_ascii_alphanumeric() => uri.push(char::from(byte)),
            byte => uri.push_str(&format!("%{byte:02X}")),
        }
    }
    match file.is_absolute() {
        true => format!("file://{uri}"),
        false => uri,
    }
}

#[cfg(test)]
mod tests {
    use super::*;

    #[test]
    fn names_are_references() {
        assert_eq!(uri(Path::new("a b/é:c.rule")), "a%20b/%C3%A9%3Ac.rule");
        assert_eq!(uri(Path::new("/a/b")), "file:///a/b");
    }

    #[test]
    fn an_empty_log_has_its_members() {
        let log = Log::default().text();
        assert!(
            log.ends_with(
                "\"rules\":[]}},\"columnKind\":\"unicodeCodePoints\",\"results\":[]}]}\n"
            )
        );
    }
}
