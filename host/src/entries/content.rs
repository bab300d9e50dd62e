//! What entries say, and where a sheet stops being one.

use crate::settings::Kind;
use crate::vocabulary::{CompareOp, FieldKind, Operator};
use std::fmt;

/// What an entry says.
///
/// ```
/// use entity_rules::entries::Content;
///
/// assert_eq!(Content::Array(3).to_string(), "array of 3");
/// assert_eq!(Content::Key("a\nb").to_string(), "key \"a\\nb\"");
/// ```
#[derive(Clone, Copy, Debug, PartialEq, Eq)]
pub enum Content<'a> {
    /// `H`: the beginning of a schema sheet.
    Head {
        /// The record's open mark.
        open: bool,
        /// How many fields the record has.
        fields: usize,
        /// The open mark of the arguments and how many there are, if there are arguments.
        arguments: Option<(bool, usize)>,
    },
    /// `F`: a field.
    Field {
        /// Its kind.
        kind: FieldKind,
        /// Its open mark.
        open: bool,
        /// Whether its element follows.
        items: bool,
        /// How many properties it has.
        properties: usize,
        /// Its name; empty for an element.
        name: &'a str,
        /// Its tag.
        tag: Option<&'a str>,
    },
    /// `R`: the beginning of a rule.
    Rule {
        /// Its name.
        name: Option<&'a str>,
        /// Its message.
        message: Option<&'a str>,
    },
    /// `T`: the beginning of a template.
    Template,
    /// `C` 1: a fixed truth.
    Literal(bool),
    /// `C` 2 to 17 and 19: an operator, and how many conditions `all` and `any` have (0 for the others).
    Condition(Operator, usize),
    /// `C` 18: a comparison.
    Compare(CompareOp),
    /// `C` 20 and 21: a quantifier and its bind.
    Quantifier(Operator, &'a str),
    /// `V` 1: null.
    Null,
    /// `V` 2 and 3: false and true.
    Bool(bool),
    /// `V` 4: a number, as written.
    Number(&'a str),
    /// `V` 5: a string.
    String(&'a str),
    /// `V` 6: an array of so many values.
    Array(usize),
    /// `V` 7: an object of so many members.
    Object(usize),
    /// `K`: the key of a member.
    Key(&'a str),
    /// `N`: a row of a name table.
    Row {
        /// The kind that it is about.
        kind: Kind,
        /// Which names the kind may read, by rising number of [`Name`](crate::Name).
        marks: [bool; 9],
    },
}

impl fmt::Display for Content<'_> {
    fn fmt(&self, f: &mut fmt::Formatter<'_>) -> fmt::Result {
        match *self {
            Self::Head { .. } => f.pad("schema"),
            Self::Field { kind, name: "", .. } => write!(f, "element or unnamed field, {kind}"),
            Self::Field { kind, name, .. } => write!(f, "field {name:?}, {kind}"),
            Self::Rule {
                name: Some(name), ..
            } => write!(f, "rule {name:?}"),
            Self::Rule { name: None, .. } => f.pad("rule without a name"),
            Self::Template => f.pad("template"),
            Self::Literal(truth) => write!(f, "condition {truth}"),
            Self::Condition(operator @ (Operator::All | Operator::Any), n) => {
                write!(f, "condition {operator} of {n}")
            }
            Self::Condition(operator, _) => write!(f, "condition {operator}"),
            Self::Compare(op) => write!(f, "condition compare, {op}"),
            Self::Quantifier(operator, bind) => write!(f, "condition {operator}, bind {bind:?}"),
            Self::Null => f.pad("null"),
            Self::Bool(truth) => write!(f, "{truth}"),
            Self::Number(text) => write!(f, "number {text}"),
            Self::String(text) => write!(f, "string {text:?}"),
            Self::Array(n) => write!(f, "array of {n}"),
            Self::Object(n) => write!(f, "object of {n}"),
            Self::Key(key) => write!(f, "key {key:?}"),
            Self::Row { kind, .. } => write!(f, "row of {kind}"),
        }
    }
}

/// An entry of a sheet, and where it begins. Its place is its position in the list, from 1.
///
/// ```
/// use entity_rules::entries::{read_schema, Content};
///
/// let entries = read_schema(b"H,0,0,-,0\n")?;
/// let head = entries.first().ok_or("no entry")?;
/// assert_eq!(head.byte, 0);
/// assert_eq!(head.content, Content::Head { open: false, fields: 0, arguments: None });
/// # Ok::<(), Box<dyn std::error::Error>>(())
/// ```
#[derive(Clone, Copy, Debug, PartialEq, Eq)]
pub struct Entry<'a> {
    /// How many bytes of the sheet come before it.
    pub byte: usize,
    /// What it says.
    pub content: Content<'a>,
}

impl fmt::Display for Entry<'_> {
    fn fmt(&self, f: &mut fmt::Formatter<'_>) -> fmt::Result {
        self.content.fmt(f)
    }
}

/// Where bytes stop being a sheet, and what was expected there.
///
/// ```
/// use entity_rules::entries::read_schema;
///
/// let error = read_schema(b"H,0,1,-,0\nF,13,0,0,0,1,-,a\n").unwrap_err();
/// assert_eq!((error.entry, error.byte), (2, 12));
/// assert_eq!(error.to_string(), "entry 2, byte 12: expected the field's kind, 1 to 12");
/// ```
#[derive(Clone, Debug, PartialEq, Eq)]
pub struct Malformed {
    /// The entry that is not one, from 1.
    pub entry: usize,
    /// How many bytes of the sheet come before the fault.
    pub byte: usize,
    /// What was expected there.
    pub expected: String,
}

impl fmt::Display for Malformed {
    fn fmt(&self, f: &mut fmt::Formatter<'_>) -> fmt::Result {
        let Self {
            entry,
            byte,
            expected,
        } = self;
        write!(f, "entry {entry}, byte {byte}: expected {expected}")
    }
}

impl std::error::Error for Malformed {}
