//! Which fault a defect is, for the numbers that tell several apart (docs/FORMAT.md, "Details").

use crate::defect::DefectNumber;
use crate::numbered::numbered;
use std::fmt;

numbered! {
    /// Which side of `compare` is at fault.
    ///
    /// ```
    /// assert_eq!(entity_rules::Side::Left.number(), 1);
    /// ```
    Side {
        /// The first value.
        Left = 1, "the left side";
        /// The second value.
        Right = 2, "the right side";
    }
}

numbered! {
    /// Why a reference cannot be read.
    ///
    /// ```
    /// use entity_rules::ReferenceFault;
    ///
    /// assert_eq!(ReferenceFault::NoCount.to_string(), "the field has no `count`");
    /// ```
    #[non_exhaustive]
    ReferenceFault {
        /// As in `$fields.` or `$fields.a..b`.
        EmptyPath = 1, "the path, or the next segment of it, is empty";
        /// A field of the record or an argument.
        UnknownRoot = 2, "the record or the arguments are closed and have no field of that name";
        /// A property of a closed object.
        UnknownProperty = 3, "the closed object has no property of that name";
        /// Neither an ordinal nor `count`.
        ArrayMember = 4, "an array has no such member";
        /// A map's keys cannot be addressed.
        MapMember = 5, "a map has no such member";
        /// A count is a number.
        AfterCount = 6, "something follows a `count`";
        /// A tag is a text.
        AfterTag = 7, "something follows a union's tag";
        /// Neither the tag nor the content.
        UnionMember = 8, "a union has no such member";
        /// Only arrays, maps and strings can be counted.
        NoCount = 9, "the field has no `count`";
        /// A path that goes on after a plain value.
        NoMember = 10, "the field has no members";
        /// A root that the kind may not read, or arguments that the schema does not have.
        RootNotAvailable = 11, "this root may not be read here, or the schema has no arguments";
        /// An unknown name, or one that the kind may not read.
        NoSuchReference = 12, "there is no such reference, or this kind may not read it";
        /// Only the kernel reads how long a text is; only a key path can meet this.
        TextCount = 13, "a projection cannot read the length of a text";
    }
}

numbered! {
    /// Why an operand of `before` or `after` is not an instant.
    ///
    /// ```
    /// assert_eq!(entity_rules::InstantFault::Escaped.number(), 1);
    /// ```
    #[non_exhaustive]
    InstantFault {
        /// A text that is kept from being a reference.
        Escaped = 1, "a text that begins with `$$` is not an instant";
        /// Any other value.
        Unreadable = 2, "neither a reference nor an instant";
    }
}

numbered! {
    /// Why what a quantifier goes over is not a collection.
    ///
    /// ```
    /// assert_eq!(entity_rules::CollectionFault::NotAString.number(), 1);
    /// ```
    #[non_exhaustive]
    CollectionFault {
        /// Another value.
        NotAString = 1, "`in` is not a string";
        /// A property of a closed object.
        UnknownProperty = 2, "the closed object has no property of that name";
        /// A path that goes on after the last member.
        NoMember = 3, "the field has no such member";
        /// A field of another kind.
        NotACollection = 4, "the field is neither an array nor a map";
        /// A text of another form.
        NoName = 5, "the text does not name a collection";
    }
}

/// Which fault it is, for the numbers that tell several apart.
///
/// ```
/// use entity_rules::{DefectNumber, Detail, ReferenceFault};
///
/// let detail = Detail::from_numbers(DefectNumber::Reference, 9);
/// assert_eq!(detail, Some(Detail::Reference(ReferenceFault::NoCount)));
/// assert_eq!(Detail::from_numbers(DefectNumber::Name, 9), None);
/// ```
#[derive(Clone, Copy, Debug, PartialEq, Eq, Hash)]
#[non_exhaustive]
pub enum Detail {
    /// The number says it all.
    None,
    /// Of 17, operand.
    Operand(Side),
    /// Of 18, reference.
    Reference(ReferenceFault),
    /// Of 20, instant.
    Instant(InstantFault),
    /// Of 22, over.
    Over(CollectionFault),
}

impl Detail {
    /// Its number; 0 for [`Detail::None`].
    ///
    /// ```
    /// use entity_rules::{Detail, Side};
    ///
    /// assert_eq!(Detail::Operand(Side::Right).number(), 2);
    /// assert_eq!(Detail::None.number(), 0);
    /// ```
    #[must_use]
    pub const fn number(self) -> u32 {
        match self {
            Self::None => 0,
            Self::Operand(side) => side.number(),
            Self::Reference(fault) => fault.number(),
            Self::Instant(fault) => fault.number(),
            Self::Over(fault) => fault.number(),
        }
    }

    /// What it says in words; empty for [`Detail::None`].
    ///
    /// ```
    /// use entity_rules::{CollectionFault, Detail};
    ///
    /// assert_eq!(Detail::Over(CollectionFault::NotAString).text(), "`in` is not a string");
    /// ```
    #[must_use]
    pub const fn text(self) -> &'static str {
        match self {
            Self::None => "",
            Self::Operand(side) => side.text(),
            Self::Reference(fault) => fault.text(),
            Self::Instant(fault) => fault.text(),
            Self::Over(fault) => fault.text(),
        }
    }

    /// The detail with that number, among those of a defect's number.
    ///
    /// ```
    /// use entity_rules::{DefectNumber, Detail};
    ///
    /// assert_eq!(Detail::from_numbers(DefectNumber::Deep, 0), Some(Detail::None));
    /// ```
    #[must_use]
    pub fn from_numbers(number: DefectNumber, detail: u32) -> Option<Self> {
        match number {
            DefectNumber::Operand => Side::from_number(detail).map(Self::Operand),
            DefectNumber::Reference => ReferenceFault::from_number(detail).map(Self::Reference),
            DefectNumber::Instant => InstantFault::from_number(detail).map(Self::Instant),
            DefectNumber::Over => CollectionFault::from_number(detail).map(Self::Over),
            _ => (detail == 0).then_some(Self::None),
        }
    }
}

impl fmt::Display for Detail {
    fn fmt(&self, f: &mut fmt::Formatter<'_>) -> fmt::Result {
        f.pad(self.text())
    }
}
