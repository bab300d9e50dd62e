//! Constant conditions of a rule, with what a person wants to know about them.

use crate::files::Rule;
use crate::object::Object;
use crate::outline::reached;
use crate::printed::visible;
use entity_rules::Constant;
use entity_rules::entries::{Content, Entry, read_rule};

/// A condition that has the same truth whatever a record holds.
pub struct Always {
    holds: bool,
    place: u32,
    /// The line of the file on which its entry begins, from 1.
    line: usize,
    path: String,
    /// The condition with its two instants.
    text: String,
}

/// The constant conditions of a rule, whose paths begin with the label.
pub fn all(label: &[u8], rule: Rule<'_>, constants: &[Constant]) -> Vec<Always> {
    let label = String::from_utf8_lossy(label);
    let entries = read_rule(rule.bytes).unwrap_or_default();
    let always = |constant: &Constant| {
        let place = usize::try_from(constant.entry).ok()?;
        let after = entries.get(place.checked_sub(1)?..)?;
        Some(Always {
            holds: constant.holds,
            place: constant.entry,
            line: rule.line_of(constant.entry, after.first()?.byte),
            path: format!("{label}{}", reached(&entries, constant.entry)?.path),
            text: condition(after)?,
        })
    };
    constants.iter().filter_map(always).collect()
}

/// A condition with two strings, from its entry on.
fn condition(entries: &[Entry<'_>]) -> Option<String> {
    let mut contents = entries.iter().map(|entry| entry.content);
    match [contents.next()?, contents.next()?, contents.next()?] {
        [
            Content::Condition(operator, _),
            Content::String(left),
            Content::String(right),
        ] => Some(format!("{left:?} {operator} {right:?}")),
        _ => None,
    }
}

impl Always {
    /// Its row under an accepted rule.
    pub fn row(&self) -> String {
        let Self {
            holds,
            place,
            line,
            text,
            ..
        } = self;
        let path = visible(&self.path);
        format!("  always {holds}: line {line}, entry {place}, {path}: {text}\n")
    }

    pub fn object(&self) -> Object {
        let mut object = Object::new();
        object.truth("holds", self.holds);
        object.number("place", self.place);
        object.number("line", self.line);
        object.text("path", &self.path);
        object.text("entry", &self.text);
        object
    }
}
