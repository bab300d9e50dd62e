//! Entries of a sheet that is being written.

use super::error::{BuildError, start};
use crate::limits::{MAX_RULE_ENTRIES, MAX_SCHEMA_ENTRIES, MAX_SHEET_BYTES, MAX_TEXT_BYTES};
use crate::vocabulary::Nesting;

/// Entries that belong together, and how deep they nest. It never passes the limits of its sheet.
#[derive(Clone, Debug, PartialEq, Eq)]
pub(crate) struct Part {
    bytes: Vec<u8>,
    entries: usize,
    nesting: usize,
    /// How many entries its sheet may have.
    limit: usize,
}

/// A part, or why there can be none.
pub(crate) type Built = Result<Part, BuildError>;

impl Part {
    /// No entries of a schema sheet yet.
    pub const fn of_schema() -> Self {
        Self::within(MAX_SCHEMA_ENTRIES)
    }

    /// No entries of a rule's or template's sheet yet.
    pub const fn of_rule() -> Self {
        Self::within(MAX_RULE_ENTRIES)
    }

    const fn within(limit: usize) -> Self {
        Self {
            bytes: Vec::new(),
            entries: 0,
            nesting: 0,
            limit,
        }
    }

    /// Adds entries that belong to the same nesting.
    pub fn add(&mut self, other: &Part) -> Result<(), BuildError> {
        self.nesting = self.nesting.max(other.nesting);
        self.append(other.entries, &other.bytes)
    }

    /// Adds entries whose nesting is counted separately, as the values of a condition do.
    pub fn add_apart(&mut self, other: &Part) -> Result<(), BuildError> {
        self.append(other.entries, &other.bytes)
    }

    /// Adds one entry: its head up to the last comma or without a text, and its texts.
    pub fn add_entry(&mut self, head: &str, texts: &[&str]) -> Result<(), BuildError> {
        self.append(1, written(head, texts).as_bytes())
    }

    /// These entries under one that holds them, one level deeper.
    pub fn under(&self, head: &str, texts: &[&str], nesting: Nesting) -> Built {
        let mut part = Self::within(self.limit);
        let whole = [written(head, texts).as_bytes(), &self.bytes].concat();
        part.append(self.entries.saturating_add(1), &whole)?;
        part.nesting = self.nesting.saturating_add(1);
        match part.nesting <= nesting.limit() {
            true => Ok(part),
            false => Err(BuildError::TooDeep {
                nesting,
                entry: first_entry(&part.bytes),
            }),
        }
    }

    /// These entries as a sheet.
    pub fn sheet(self) -> Vec<u8> {
        self.bytes
    }

    fn append(&mut self, entries: usize, bytes: &[u8]) -> Result<(), BuildError> {
        self.entries = self.entries.saturating_add(entries);
        if self.entries > self.limit {
            return Err(BuildError::TooManyEntries {
                entry: first_entry(bytes),
                limit: self.limit,
            });
        }
        if self.bytes.len().saturating_add(bytes.len()) > MAX_SHEET_BYTES {
            return Err(BuildError::TooManyBytes {
                entry: first_entry(bytes),
            });
        }
        self.bytes.extend_from_slice(bytes);
        Ok(())
    }
}

/// An entry: its head and its texts.
fn written(head: &str, texts: &[&str]) -> String {
    [&[head], texts, &["\n"]].concat().concat()
}

/// How the first of these entries begins, for an error.
fn first_entry(bytes: &[u8]) -> String {
    let line = bytes.split(|&byte| byte == b'\n').next();
    start(&String::from_utf8_lossy(line.unwrap_or_default()))
}

/// The part of a builder, or its error.
pub(crate) fn lent(built: &Built) -> Result<&Part, BuildError> {
    built.as_ref().map_err(Clone::clone)
}

/// A text of at most 512 bytes.
pub(crate) fn text<'t>(what: &'static str, text: &'t str) -> Result<&'t str, BuildError> {
    match text.len() {
        0..=MAX_TEXT_BYTES => Ok(text),
        bytes => Err(BuildError::TextTooLong {
            what,
            start: start(text),
            bytes,
        }),
    }
}

/// The length of a text that may be absent, as an entry writes it.
pub(crate) fn length_or_dash(text: Option<&str>) -> String {
    text.map_or_else(|| "-".to_owned(), |text| text.len().to_string())
}
