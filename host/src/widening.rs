//! Whether one schema is a widening of another (docs/FORMAT.md, "Is it a widening?").

use crate::limits::RESULT_BYTES;
use crate::numbered::numbered;
use crate::raw;
use crate::refusal::Refusal;
use crate::sheets::SchemaBytes;
use std::fmt;

numbered! {
    /// Why a schema is not a widening of another.
    ///
    /// ```
    /// use entity_rules::BreachReason;
    ///
    /// assert_eq!(BreachReason::from_number(5), Some(BreachReason::MarkCloses));
    /// assert_eq!(BreachReason::FieldMissing.to_string(), "a field is missing");
    /// ```
    #[non_exhaustive]
    BreachReason {
        /// The old schema has it, the new one has not.
        FieldMissing = 1, "a field is missing";
        /// Even if the new kind is json: a quantifier could go over the old one.
        KindDiffers = 2, "the kind of a field differs";
        /// Elements neither come nor go.
        ItemsDiffer = 3, "a field has an element in only one of the two";
        /// An absent tag and an empty one differ too.
        TagDiffers = 4, "the tag of a field differs";
        /// Of the record, the arguments or a field.
        MarkCloses = 5, "an open mark has gone from 1 to 0";
        /// A path that was not checked before would now be checked against it.
        FieldAdded = 6, "a field is added where the old schema is open";
        /// Even if they have no fields.
        ArgumentsGo = 7, "the arguments are taken away";
    }
}

/// The first breach in the order of the old sheet.
///
/// ```
/// use entity_rules::{widens, BreachReason, Field, FieldKind, Schema};
///
/// let old = Schema::new().field(Field::new("yarn", FieldKind::String)).sheet()?;
/// let new = Schema::new().field(Field::new("dye", FieldKind::String)).sheet()?;
/// let widening = widens(&old, &new)?;
/// let breach = widening.breach().ok_or("no widening")?;
///
/// assert_eq!(breach.reason, BreachReason::FieldMissing);
/// assert_eq!((breach.old_entry, breach.new_entry), (Some(2), None));
/// assert_eq!(breach.to_string(), "a field is missing (entry 2 of the old sheet)");
/// # Ok::<(), Box<dyn std::error::Error>>(())
/// ```
#[derive(Clone, Copy, Debug, PartialEq, Eq, Hash)]
pub struct Breach {
    /// What is not kept.
    pub reason: BreachReason,
    /// The entry of the old sheet that it is about, from 1; none for a field that is added.
    pub old_entry: Option<u32>,
    /// The entry of the new sheet that it is about, from 1; none for a field that is missing and for arguments that are taken away.
    pub new_entry: Option<u32>,
}

impl fmt::Display for Breach {
    fn fmt(&self, f: &mut fmt::Formatter<'_>) -> fmt::Result {
        let Self { reason, .. } = self;
        match (self.old_entry, self.new_entry) {
            (Some(old), Some(new)) => {
                write!(
                    f,
                    "{reason} (entry {old} of the old sheet, {new} of the new)"
                )
            }
            (Some(old), None) => write!(f, "{reason} (entry {old} of the old sheet)"),
            (None, Some(new)) => write!(f, "{reason} (entry {new} of the new sheet)"),
            (None, None) => reason.fmt(f),
        }
    }
}

/// Whether a schema is a widening of another, and of which kind.
///
/// Under a widening every rule and template that was accepted is accepted still, with as many checks passed. One with a defect passes no fewer checks; where it
/// passes no more, its defect has the same number, family, place and path.
///
/// ```
/// use entity_rules::{widens, Schema, Widening};
///
/// let (closed, open) = (Schema::new().sheet()?, Schema::new().open().sheet()?);
/// assert_eq!(widens(&closed, &open)?, Widening::Marks);
/// assert!(!widens(&open, &closed)?.is_widening());
/// # Ok::<(), Box<dyn std::error::Error>>(())
/// ```
#[derive(Clone, Copy, Debug, PartialEq, Eq, Hash)]
pub enum Widening {
    /// It is: nothing differs but open marks gone from 0 to 1, with arguments in both or in neither. A defect that stays has the same detail as well.
    Marks,
    /// It is, though not of that kind: fields are added where the old schema is closed, or arguments appear.
    Anything,
    /// It is not a widening, and this is the first breach.
    Breach(Breach),
}

impl Widening {
    /// Whether it is a widening.
    ///
    /// ```
    /// assert!(entity_rules::Widening::Anything.is_widening());
    /// ```
    #[must_use]
    pub const fn is_widening(&self) -> bool {
        !matches!(self, Self::Breach(_))
    }

    /// What is not kept, where it is not a widening.
    ///
    /// ```
    /// assert_eq!(entity_rules::Widening::Marks.breach(), None);
    /// ```
    #[must_use]
    pub const fn breach(&self) -> Option<Breach> {
        match self {
            Self::Marks | Self::Anything => None,
            Self::Breach(breach) => Some(*breach),
        }
    }

    /// The number of the answer, 1 to 3.
    ///
    /// ```
    /// assert_eq!(entity_rules::Widening::Anything.number(), 2);
    /// ```
    #[must_use]
    pub const fn number(&self) -> u32 {
        match self {
            Self::Marks => 1,
            Self::Anything => 2,
            Self::Breach(_) => 3,
        }
    }
}

impl fmt::Display for Widening {
    fn fmt(&self, f: &mut fmt::Formatter<'_>) -> fmt::Result {
        match self {
            Self::Marks => f.pad("a widening: nothing differs but open marks gone from 0 to 1"),
            Self::Anything => f.pad("a widening"),
            Self::Breach(breach) => write!(f, "not a widening: {breach}"),
        }
    }
}

/// Decides whether a schema is a widening of another, so that rules need not be checked again.
///
/// ```
/// use entity_rules::{check_rule, widens, Condition, Field, FieldKind, Kind, Rule, Schema, Semantics, Widening};
///
/// let yarn = Field::new("yarn", FieldKind::String);
/// let old = Schema::new().field(yarn.clone()).sheet()?;
/// let new = Schema::new().field(yarn.clone()).field(Field::new("dye", FieldKind::String)).sheet()?;
/// assert_eq!(widens(&old, &new)?, Widening::Anything);
///
/// // A rule that the old schema accepts is then accepted by the new one too.
/// let rule = Rule::new(Condition::exists("$fields.yarn")).sheet()?;
/// let [before, after] = [&old, &new].map(|schema| {
///     check_rule(Kind::Invariant, Semantics::Kernel1, "r", schema, &rule)
/// });
/// assert_eq!(before, after);
///
/// // Where the record is open, `$fields.dye.shade` could be read; a field `dye` puts an end to that.
/// let open = Schema::new().open().field(yarn).sheet()?;
/// assert!(!widens(&open, &new)?.is_widening());
/// # Ok::<(), Box<dyn std::error::Error>>(())
/// ```
///
/// # Errors
///
/// If one of the sheets is refused: [`Refusal::SchemaSheet`] for the old one, [`Refusal::NewSchemaSheet`] for the new one.
pub fn widens<'a>(
    old: impl Into<SchemaBytes<'a>>,
    new: impl Into<SchemaBytes<'a>>,
) -> Result<Widening, Refusal> {
    let (old, new) = (old.into().0, new.into().0);
    let mut result = [0; RESULT_BYTES];
    raw::widens(old, new, &mut result);
    answer(raw::numbers(&result))
}

/// The answer or refusal that the numbers of a call stand for.
fn answer(numbers: [u32; 7]) -> Result<Widening, Refusal> {
    let unknown = Refusal::Unknown(numbers);
    match numbers {
        [0, 1, 0, 0, 0, 0, 0] => Ok(Widening::Marks),
        [0, 2, 0, 0, 0, 0, 0] => Ok(Widening::Anything),
        [0, 3, reason, old, new, 0, 0] => {
            let breach = breach(reason, old, new).ok_or(unknown)?;
            Ok(Widening::Breach(breach))
        }
        [3, 0, 0, 0, 0, 0, 0] => Err(Refusal::Width),
        [4, 1, 0, 0, 0, 0, 0] => Err(Refusal::SchemaSheet),
        [4, 2, 0, 0, 0, 0, 0] => Err(Refusal::NewSchemaSheet),
        _ => Err(unknown),
    }
}

/// A breach, where each of the two sheets has an entry if one of that reason does.
fn breach(reason: u32, old: u32, new: u32) -> Option<Breach> {
    let reason = BreachReason::from_number(reason)?;
    let has_old = reason != BreachReason::FieldAdded;
    let has_new = !matches!(
        reason,
        BreachReason::FieldMissing | BreachReason::ArgumentsGo
    );
    let entry = |number: u32| (number != 0).then_some(number);
    ((old != 0, new != 0) == (has_old, has_new)).then_some(Breach {
        reason,
        old_entry: entry(old),
        new_entry: entry(new),
    })
}

#[cfg(test)]
mod tests {
    use super::*;

    #[test]
    fn answers_outside_the_format_are_unknown() {
        for numbers in [
            [0, 0, 0, 0, 0, 0, 0],
            [0, 1, 1, 0, 0, 0, 0],
            [0, 2, 0, 0, 0, 1, 0],
            [0, 3, 0, 1, 1, 0, 0],
            [0, 3, 8, 1, 1, 0, 0],
            [0, 3, 1, 2, 2, 0, 0],
            [0, 3, 2, 2, 0, 0, 0],
            [0, 3, 6, 1, 2, 0, 0],
            [0, 3, 7, 0, 0, 0, 0],
            [0, 4, 0, 0, 0, 0, 0],
            [4, 0, 0, 0, 0, 0, 0],
            [4, 3, 0, 0, 0, 0, 0],
            [5, 0, 0, 0, 0, 0, 0],
        ] {
            assert_eq!(answer(numbers), Err(Refusal::Unknown(numbers)));
        }
    }
}
