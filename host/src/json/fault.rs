//! Where a text stops being a rule, and why.

use std::fmt;

/// Where a text stops being the JSON of a rule, or its sheet passes a limit, and why.
///
/// ```
/// use entity_rules::rule_from_json;
///
/// let error = rule_from_json("{\n  \"assert\": {\"exits\": \"$id\"}\n}").unwrap_err();
/// let fault = error.fault().ok_or("a fault")?;
/// assert_eq!((fault.byte, fault.line, fault.column), (15, 2, 14));
/// assert_eq!(fault.to_string(), "line 2, column 14: there is no operator `exits`; did you mean `exists`?");
/// # Ok::<(), Box<dyn std::error::Error>>(())
/// ```
#[derive(Clone, Debug, PartialEq, Eq, Hash)]
pub struct Fault {
    /// How many bytes of the text come before it.
    pub byte: usize,
    /// The line that it is on, from 1.
    pub line: usize,
    /// The character of that line, from 1.
    pub column: usize,
    /// What is wrong there.
    pub reason: String,
}

impl Fault {
    pub(crate) fn new(text: &[u8], byte: usize, reason: impl Into<String>) -> Self {
        let before = text.get(..byte).unwrap_or(text);
        let ends = before.iter().filter(|byte| **byte == b'\n').count();
        let last = before.rsplit(|byte| *byte == b'\n').next();
        let is_first = |byte: &&u8| **byte & 0xC0 != 0x80;
        let characters = last.unwrap_or_default().iter().filter(is_first).count();
        Self {
            byte,
            line: ends.saturating_add(1),
            column: characters.saturating_add(1),
            reason: reason.into(),
        }
    }
}

impl fmt::Display for Fault {
    fn fmt(&self, f: &mut fmt::Formatter<'_>) -> fmt::Result {
        let Self {
            line,
            column,
            reason,
            ..
        } = self;
        write!(f, "line {line}, column {column}: {reason}")
    }
}

impl std::error::Error for Fault {}
