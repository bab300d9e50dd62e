//! The check that failed, and where (docs/FORMAT.md, "Answers", "Families").

use crate::detail::Detail;
use crate::numbered::numbered;
use std::fmt;

numbered! {
    /// Which check found the defect.
    ///
    /// ```
    /// use entity_rules::DefectNumber;
    ///
    /// assert_eq!(DefectNumber::from_number(18), Some(DefectNumber::Reference));
    /// assert_eq!(DefectNumber::Instant.word(), "instant");
    /// ```
    #[non_exhaustive]
    DefectNumber {
        /// The rule's name.
        Name = 11, "the rule's name is blank";
        /// The rule's message.
        Message = 12, "the rule's message is blank";
        /// The depth of conditions.
        Deep = 13, "conditions nest deeper than 32";
        /// A number.
        Literal = 14, "a number is not finite";
        /// An operator.
        Operator = 15, "an operator of the service semantics under kernel/1";
        /// A list of conditions.
        Empty = 16, "`all` or `any` without conditions";
        /// A side of `compare`.
        Operand = 17, "a side of `compare` is an array or an object";
        /// A reference.
        Reference = 18, "a reference cannot be read";
        /// An operand of `starts_with` or `ends_with`.
        Affix = 19, "an operand of `starts_with` or `ends_with` is not a string";
        /// An operand of `before` or `after`.
        Instant = 20, "an operand of `before` or `after` is not an instant";
        /// The bind of a quantifier.
        Bind = 21, "a bind is blank or contains a dot";
        /// What a quantifier goes over.
        Over = 22, "what `in` names is not a collection";
    }
}

impl DefectNumber {
    /// The one word for it in the format's table of answers.
    ///
    /// ```
    /// assert_eq!(entity_rules::DefectNumber::Deep.word(), "deep");
    /// ```
    #[must_use]
    pub const fn word(self) -> &'static str {
        match self {
            Self::Name => "name",
            Self::Message => "message",
            Self::Deep => "deep",
            Self::Literal => "literal",
            Self::Operator => "operator",
            Self::Empty => "empty",
            Self::Operand => "operand",
            Self::Reference => "reference",
            Self::Affix => "affix",
            Self::Instant => "instant",
            Self::Bind => "bind",
            Self::Over => "over",
        }
    }
}

numbered! {
    /// The variant of entity-runtime's error that a defect belongs to.
    ///
    /// ```
    /// use entity_rules::Family;
    ///
    /// assert_eq!(Family::QuantifierBodyScope.name(), "QuantifierBodyScope");
    /// assert_eq!(Family::QuantifierBodyScope.to_string(), "a fault in the body of a quantifier");
    /// ```
    #[non_exhaustive]
    Family {
        /// Name, message, literals, and faults of a rule outside quantifiers.
        InvalidRule = 1, "a fault of the rule";
        /// A reference under a kind of templates.
        InvalidTemplate = 2, "a fault of the template";
        /// An operator under `kernel/1`.
        SemanticsKeyNotAvailable = 3, "not available under these semantics";
        /// The depth of conditions.
        ConditionTooDeep = 4, "conditions too deep";
        /// A side of `compare`.
        CompareOperandNotAddressable = 5, "an operand that cannot be compared";
        /// The bind of a quantifier.
        QuantifierBindInvalid = 6, "a bind that is not a name";
        /// What a quantifier goes over.
        QuantifierOverNotCollection = 7, "a quantifier over something that is not a collection";
        /// A fault of a rule inside a quantifier's body.
        QuantifierBodyScope = 8, "a fault in the body of a quantifier";
    }
}

/// The first check that failed, and where.
///
/// ```
/// use entity_rules::{check_rule, Condition, DefectNumber, Kind, Rule, Schema, Semantics};
///
/// let schema = Schema::new().sheet()?;
/// let rule = Rule::new(Condition::exists("$fields.bars")).sheet()?;
/// let verdict = check_rule(Kind::Invariant, Semantics::Service1, "threaded", &schema, &rule)?;
/// let defect = verdict.defect().ok_or("a defect")?;
///
/// assert_eq!(defect.number, DefectNumber::Reference);
/// assert_eq!(defect.path, "threaded.assert.exists");
/// assert_eq!(defect.place, 3);
/// assert_eq!(defect.message, "'$fields.bars' cannot resolve: unknown field 'bars'");
/// assert_eq!(
///     defect.to_string(),
///     "threaded.assert.exists: a reference cannot be read: the record or the arguments are closed and have no field of that name (entry 3)"
/// );
/// # Ok::<(), Box<dyn std::error::Error>>(())
/// ```
#[derive(Clone, Debug, PartialEq, Eq, Hash)]
pub struct Defect {
    /// Which check failed.
    pub number: DefectNumber,
    /// The variant of entity-runtime's error.
    pub family: Family,
    /// Which fault it is, where the number tells several apart.
    pub detail: Detail,
    /// The entry of the rule sheet that is at fault, from 1.
    pub place: u32,
    /// For family 8 the entry of the quantifier's `in` value, else none.
    pub over_place: Option<u32>,
    /// How many checks passed before this one.
    pub passed: u32,
    /// The way from the label to the fault.
    pub path: String,
    /// What entity-runtime says of it, byte for byte: its sentence; or, where it has none, the operator (of 15), the depth (of 13), the side (of 17) or the bind (of 21).
    pub message: String,
}

impl Defect {
    /// What is wrong, in this crate's own words and without the place.
    ///
    /// ```
    /// # use entity_rules::{check_template, Kind, Semantics};
    /// let template = b"T\nV,5,5,$args\n";
    /// let verdict = check_template(Kind::Invariant, Semantics::Kernel1, "t", b"H,0,0,-,0\n", template)?;
    /// assert_eq!(
    ///     verdict.defect().map(|defect| defect.explanation()),
    ///     Some("a reference cannot be read: there is no such reference, or this kind may not read it".to_owned())
    /// );
    /// # Ok::<(), entity_rules::Refusal>(())
    /// ```
    #[must_use]
    pub fn explanation(&self) -> String {
        match self.detail {
            Detail::None => self.number.to_string(),
            detail => format!("{}: {detail}", self.number),
        }
    }
}

impl fmt::Display for Defect {
    fn fmt(&self, f: &mut fmt::Formatter<'_>) -> fmt::Result {
        let Self { path, place, .. } = self;
        write!(f, "{path}: {} (entry {place})", self.explanation())
    }
}

impl std::error::Error for Defect {}

#[cfg(test)]
mod tests {
    use super::*;

    #[test]
    fn words_begin_the_names() {
        for number in DefectNumber::ALL {
            assert_eq!(number.word(), number.name().to_lowercase());
        }
    }
}
