//! What a sheet cannot hold.

use crate::limits::{MAX_SHEET_BYTES, MAX_TEXT_BYTES};
use crate::vocabulary::Nesting;
use std::fmt;

/// Why something cannot be written as a sheet. Of a long text only the start is kept.
///
/// ```
/// use entity_rules::{BuildError, Field, FieldKind, Schema};
///
/// let bars = || Field::new("bars", FieldKind::Integer);
/// let error = Schema::new().field(bars()).field(bars()).sheet().unwrap_err();
/// assert_eq!(error, BuildError::NameTwice { name: "bars".to_owned() });
/// assert_eq!(error.to_string(), "two sibling fields are named \"bars\"; expected each name once");
/// ```
#[derive(Clone, Debug, PartialEq, Eq, Hash)]
#[non_exhaustive]
pub enum BuildError {
    /// A text is over 512 bytes long.
    TextTooLong {
        /// What the text is: a name, a tag, a string and so on.
        what: &'static str,
        /// How it begins.
        start: String,
        /// How long it is.
        bytes: usize,
    },
    /// A number's text is not one of RFC 8259.
    NotANumber {
        /// How it begins.
        start: String,
    },
    /// Two fields of one holder have the same name.
    NameTwice {
        /// That name.
        name: String,
    },
    /// Two members of one object have the same key.
    KeyTwice {
        /// That key.
        key: String,
    },
    /// An element has a name.
    NamedElement {
        /// That name.
        name: String,
    },
    /// Fields, conditions or values nest too deep.
    TooDeep {
        /// What nests.
        nesting: Nesting,
        /// How the entry begins under which it is too deep.
        entry: String,
    },
    /// The sheet has over 1,024 entries, or over 2,048 if it is a rule's or a template's.
    TooManyEntries {
        /// How the entry begins that passes the limit, with those that belong to it.
        entry: String,
        /// How many entries the sheet may have.
        limit: usize,
    },
    /// The sheet has over 30,000 bytes.
    TooManyBytes {
        /// How the entry begins that passes the limit, with those that belong to it.
        entry: String,
    },
}

impl fmt::Display for BuildError {
    fn fmt(&self, f: &mut fmt::Formatter<'_>) -> fmt::Result {
        match self {
            Self::TextTooLong { what, start, bytes } => {
                write!(
                    f,
                    "the {what} {start:?} has {bytes} bytes; expected at most {MAX_TEXT_BYTES}"
                )
            }
            Self::NotANumber { start } => {
                write!(
                    f,
                    "{start:?} is not a number; expected one as JSON writes it"
                )
            }
            Self::NameTwice { name } => {
                write!(
                    f,
                    "two sibling fields are named {name:?}; expected each name once"
                )
            }
            Self::KeyTwice { key } => write!(
                f,
                "an object has the key {key:?} twice; expected each key once"
            ),
            Self::NamedElement { name } => {
                write!(f, "an element is named {name:?}; expected `Field::element`")
            }
            Self::TooDeep { nesting, entry } => write!(
                f,
                "{nesting} nest deeper than {}, under the entry {entry:?}",
                nesting.limit()
            ),
            Self::TooManyEntries { entry, limit } => write!(
                f,
                "with the entry {entry:?} the sheet has more than {limit} entries"
            ),
            Self::TooManyBytes { entry } => write!(
                f,
                "with the entry {entry:?} the sheet has more than {MAX_SHEET_BYTES} bytes"
            ),
        }
    }
}

impl std::error::Error for BuildError {}

/// The first characters of a text, for an error.
pub(crate) fn start(text: &str) -> String {
    const SHOWN: usize = 40;
    let mut start: String = text.chars().take(SHOWN).collect();
    if start.len() < text.len() {
        start.push('…');
    }
    start
}
