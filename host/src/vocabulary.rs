//! What the entries of sheets are made of, for builders and for reading: kinds of fields, operators, comparisons, and what nests.

use crate::limits::{MAX_CONDITION_NESTING, MAX_FIELD_NESTING, MAX_VALUE_NESTING};
use crate::numbered::numbered;
use std::fmt;

numbered! {
    /// The kind of a field.
    ///
    /// ```
    /// assert_eq!(entity_rules::FieldKind::Binary64.number(), 12);
    /// ```
    FieldKind {
        /// Text; it has a `count`.
        String = 1, "string";
        /// A whole number.
        Integer = 2, "integer";
        /// Any number.
        Number = 3, "number";
        /// `true` or `false`.
        Boolean = 4, "boolean";
        /// One of several texts.
        Enum = 5, "enum";
        /// A list of elements; it has a `count`, and elements by their ordinal.
        Array = 6, "array";
        /// Properties with names.
        Object = 7, "object";
        /// Any value; every path into it can be read.
        Json = 8, "json";
        /// The identity of another record.
        Ref = 9, "ref";
        /// Elements under keys; it has a `count`.
        Map = 10, "map";
        /// A tag, and content that depends on it.
        Union = 11, "union";
        /// A floating-point number.
        Binary64 = 12, "binary64";
    }
}

numbered! {
    /// The operator of a condition.
    ///
    /// ```
    /// use entity_rules::Operator;
    ///
    /// assert_eq!(Operator::from_number(20), Some(Operator::ForAll));
    /// assert_eq!(Operator::ForAll.to_string(), "for_all");
    /// ```
    Operator {
        /// A fixed truth.
        Literal = 1, "literal";
        /// Every condition holds.
        All = 2, "all";
        /// A condition holds.
        Any = 3, "any";
        /// The condition does not hold.
        Not = 4, "not";
        /// There is a value.
        Exists = 5, "exists";
        /// One instant lies before another.
        Before = 6, "before";
        /// One instant lies after another.
        After = 7, "after";
        /// Equal.
        Eq = 8, "eq";
        /// Not equal.
        Ne = 9, "ne";
        /// Greater.
        Gt = 10, "gt";
        /// Greater or equal.
        Gte = 11, "gte";
        /// Less.
        Lt = 12, "lt";
        /// Less or equal.
        Lte = 13, "lte";
        /// One is a member of the other.
        In = 14, "in";
        /// One has the other as a member.
        Contains = 15, "contains";
        /// A string begins with another.
        StartsWith = 16, "starts_with";
        /// A string ends with another.
        EndsWith = 17, "ends_with";
        /// An exact comparison.
        Compare = 18, "compare";
        /// The value counts as true.
        Truthy = 19, "truthy";
        /// For every element.
        ForAll = 20, "for_all";
        /// For at least one element.
        ForAny = 21, "for_any";
    }
}

numbered! {
    /// What [`Condition::compare`](crate::Condition::compare) asks.
    ///
    /// ```
    /// assert_eq!(entity_rules::CompareOp::Lte.to_string(), "lte");
    /// ```
    CompareOp {
        /// Equal.
        Eq = 1, "eq";
        /// Not equal.
        Ne = 2, "ne";
        /// Less.
        Lt = 3, "lt";
        /// Less or equal.
        Lte = 4, "lte";
        /// Greater.
        Gt = 5, "gt";
        /// Greater or equal.
        Gte = 6, "gte";
    }
}

/// What is nested in itself.
///
/// ```
/// assert_eq!(entity_rules::Nesting::Conditions.limit(), 256);
/// ```
#[derive(Clone, Copy, Debug, PartialEq, Eq, Hash)]
pub enum Nesting {
    /// Fields of a schema, by properties and elements.
    Fields,
    /// Conditions of a rule.
    Conditions,
    /// Arrays and objects.
    Values,
}

impl Nesting {
    /// How deep it may go.
    ///
    /// ```
    /// assert_eq!(entity_rules::Nesting::Values.limit(), 64);
    /// ```
    #[must_use]
    pub const fn limit(self) -> usize {
        match self {
            Self::Fields => MAX_FIELD_NESTING,
            Self::Conditions => MAX_CONDITION_NESTING,
            Self::Values => MAX_VALUE_NESTING,
        }
    }
}

impl fmt::Display for Nesting {
    fn fmt(&self, f: &mut fmt::Formatter<'_>) -> fmt::Result {
        f.pad(match self {
            Self::Fields => "fields",
            Self::Conditions => "conditions",
            Self::Values => "values",
        })
    }
}
