//! Why a text is not converted.

use super::fault::Fault;
use crate::refusal::Refusal;
use std::fmt;

/// Why no sheet is made of a text.
///
/// The refusal is the library's. The fault is this crate's reading of it, for people: where the library refuses a text in which this crate finds nothing, there is none.
///
/// ```
/// use entity_rules::{Refusal, rule_from_json};
///
/// let error = rule_from_json(r#"{"assert": {"not": [true]}}"#).unwrap_err();
/// assert_eq!(error.refusal(), Refusal::JsonForm);
/// assert_eq!(
///     error.to_string(),
///     "line 1, column 20: a condition is `true`, `false` or an object with one operator, not an array"
/// );
/// ```
#[derive(Clone, Debug, PartialEq, Eq, Hash)]
pub struct JsonError {
    refusal: Refusal,
    fault: Option<Fault>,
}

impl JsonError {
    pub(super) const fn new(refusal: Refusal, fault: Option<Fault>) -> Self {
        Self { refusal, fault }
    }

    /// The refusal that it explains: 31, a text that is not the JSON of a rule, or 32, a sheet that would pass a limit.
    ///
    /// ```
    /// use entity_rules::{Refusal, rule_from_json};
    ///
    /// let long = format!(r#"{{"assert": {{"exists": "{}"}}}}"#, "a".repeat(513));
    /// assert_eq!(rule_from_json(long).map_err(|error| error.refusal()), Err(Refusal::SheetLimit));
    /// ```
    #[must_use]
    pub const fn refusal(&self) -> Refusal {
        self.refusal
    }

    /// The number of that refusal.
    ///
    /// ```
    /// assert_eq!(entity_rules::rule_from_json("").map_err(|error| error.number()), Err(31));
    /// ```
    #[must_use]
    pub const fn number(&self) -> u32 {
        self.refusal.number()
    }

    /// Where in the text, and why.
    ///
    /// ```
    /// let error = entity_rules::rule_from_json("{\"assert\": true,\n}").unwrap_err();
    /// let told = error.fault().map(|fault| fault.to_string());
    /// assert_eq!(told.as_deref(), Some("line 2, column 1: expected the name of a member, a string"));
    /// ```
    #[must_use]
    pub const fn fault(&self) -> Option<&Fault> {
        self.fault.as_ref()
    }
}

impl fmt::Display for JsonError {
    fn fmt(&self, f: &mut fmt::Formatter<'_>) -> fmt::Result {
        match &self.fault {
            Some(fault) => fault.fmt(f),
            None => self.refusal.fmt(f),
        }
    }
}

impl std::error::Error for JsonError {}
