//! What a check answers (docs/FORMAT.md, "Answers").

use crate::defect::{Defect, DefectNumber, Family};
use crate::detail::{Detail, ReferenceFault};
use crate::refusal::Refusal;
use std::fmt;

/// The answer to a call that was not refused.
///
/// ```
/// use entity_rules::{check_rule, Condition, Kind, Rule, Schema, Semantics, Verdict};
///
/// let schema = Schema::new().sheet()?;
/// let rule = Rule::new(Condition::literal(true)).sheet()?;
/// let verdict = check_rule(Kind::Invariant, Semantics::Kernel1, "always", &schema, &rule)?;
///
/// assert_eq!(verdict, Verdict::Accepted { passed: 4 });
/// # Ok::<(), Box<dyn std::error::Error>>(())
/// ```
#[derive(Clone, Debug, PartialEq, Eq, Hash)]
pub enum Verdict {
    /// Every check passed.
    Accepted {
        /// How many there were.
        passed: u32,
    },
    /// A check failed.
    Defect(Defect),
}

impl Verdict {
    /// Whether every check passed.
    ///
    /// ```
    /// assert!(entity_rules::Verdict::Accepted { passed: 4 }.is_accepted());
    /// ```
    #[must_use]
    pub const fn is_accepted(&self) -> bool {
        matches!(self, Self::Accepted { .. })
    }

    /// How many checks passed: all of them, or those before the one that failed.
    ///
    /// ```
    /// assert_eq!(entity_rules::Verdict::Accepted { passed: 4 }.passed(), 4);
    /// ```
    #[must_use]
    pub const fn passed(&self) -> u32 {
        match self {
            Self::Accepted { passed } => *passed,
            Self::Defect(defect) => defect.passed,
        }
    }

    /// The defect, if there is one.
    ///
    /// ```
    /// assert_eq!(entity_rules::Verdict::Accepted { passed: 4 }.defect(), None);
    /// ```
    #[must_use]
    pub const fn defect(&self) -> Option<&Defect> {
        match self {
            Self::Accepted { .. } => None,
            Self::Defect(defect) => Some(defect),
        }
    }
}

impl fmt::Display for Verdict {
    fn fmt(&self, f: &mut fmt::Formatter<'_>) -> fmt::Result {
        match self {
            Self::Accepted { passed: 0 } => f.pad("accepted: there was nothing to check"),
            Self::Accepted { passed: 1 } => f.pad("accepted: its 1 check passed"),
            Self::Accepted { passed } => write!(f, "accepted: all {passed} checks passed"),
            Self::Defect(defect) => defect.fmt(f),
        }
    }
}

/// The answer to a call for a key path that was not refused.
///
/// ```
/// use entity_rules::{check_path, Field, FieldKind, PathVerdict, Reader, ReferenceFault, Schema, Semantics};
///
/// let schema = Schema::new().field(Field::new("yarn", FieldKind::String)).sheet()?;
/// let verdict = check_path(Semantics::Service1, Reader::Projection, "yran", &schema)?;
///
/// assert_eq!(verdict, PathVerdict::Defect(ReferenceFault::UnknownRoot));
/// assert_eq!(
///     verdict.to_string(),
///     "a reference cannot be read: the record or the arguments are closed and have no field of that name"
/// );
/// # Ok::<(), Box<dyn std::error::Error>>(())
/// ```
#[derive(Clone, Copy, Debug, PartialEq, Eq, Hash)]
pub enum PathVerdict {
    /// The reader can read the path.
    Accepted,
    /// It cannot, for this reason.
    Defect(ReferenceFault),
}

impl PathVerdict {
    /// Whether the reader can read the path.
    ///
    /// ```
    /// assert!(entity_rules::PathVerdict::Accepted.is_accepted());
    /// ```
    #[must_use]
    pub const fn is_accepted(self) -> bool {
        matches!(self, Self::Accepted)
    }

    /// Why the path cannot be read, if it cannot.
    ///
    /// ```
    /// assert_eq!(entity_rules::PathVerdict::Accepted.fault(), None);
    /// ```
    #[must_use]
    pub const fn fault(self) -> Option<ReferenceFault> {
        match self {
            Self::Accepted => None,
            Self::Defect(fault) => Some(fault),
        }
    }
}

impl fmt::Display for PathVerdict {
    fn fmt(&self, f: &mut fmt::Formatter<'_>) -> fmt::Result {
        match self {
            Self::Accepted => f.pad("accepted: its 1 check passed"),
            Self::Defect(fault) => write!(f, "{}: {fault}", DefectNumber::Reference),
        }
    }
}

/// The verdict or refusal that a call's numbers, path buffer and message stand for. Only a defect has a message.
pub(crate) fn answer(
    numbers: [u32; 7],
    path: &[u8],
    message: Option<&[u8]>,
) -> Result<Verdict, Refusal> {
    let [number, _, _, _, _, passed, _] = numbers;
    if number == 0 {
        return Ok(Verdict::Accepted { passed });
    }
    match Refusal::from_number(number) {
        Some(refusal) => Err(refusal),
        None => defect(numbers, path, message)
            .map(Verdict::Defect)
            .ok_or(Refusal::Unknown(numbers)),
    }
}

/// The verdict or refusal that the numbers of a call for a key path stand for.
pub(crate) fn path_answer(numbers: [u32; 7]) -> Result<PathVerdict, Refusal> {
    let unknown = Refusal::Unknown(numbers);
    match numbers {
        [0, 0, 0, 0, 0, 1, 0] => Ok(PathVerdict::Accepted),
        [2, 0, 0, 0, 0, 0, 0] => Err(Refusal::Path),
        [number @ (1 | 3 | 4), 0, 0, 0, 0, 0, 0] => {
            Err(Refusal::from_number(number).unwrap_or(unknown))
        }
        [18, 0, detail, 0, 0, 0, 0] => {
            let fault = ReferenceFault::from_number(detail).ok_or(unknown)?;
            Ok(PathVerdict::Defect(fault))
        }
        _ => Err(unknown),
    }
}

/// The defect, where the library keeps to the format. Path and message are then UTF-8, since label, keys and texts are.
fn defect(numbers: [u32; 7], path: &[u8], message: Option<&[u8]>) -> Option<Defect> {
    let [number, family, detail, place, over_place, passed, length] = numbers;
    let number = DefectNumber::from_number(number)?;
    let path = path.get(..usize::try_from(length).ok()?)?;
    Some(Defect {
        number,
        family: Family::from_number(family)?,
        detail: Detail::from_numbers(number, detail)?,
        place,
        over_place: (over_place != 0).then_some(over_place),
        passed,
        path: String::from_utf8_lossy(path).into_owned(),
        message: String::from_utf8_lossy(message?).into_owned(),
    })
}

#[cfg(test)]
mod tests {
    use super::*;

    #[test]
    fn answers_outside_the_format_are_unknown() {
        for numbers in [
            [6, 0, 0, 0, 0, 0, 0],
            [18, 9, 1, 1, 0, 0, 0],
            [18, 1, 14, 1, 0, 0, 0],
            [11, 1, 1, 1, 0, 0, 0],
            [11, 1, 0, 1, 0, 0, 3],
        ] {
            let answer = answer(numbers, b"ab", Some(b""));
            assert_eq!(answer, Err(Refusal::Unknown(numbers)));
        }
    }

    #[test]
    fn a_defect_without_its_message_is_unknown() {
        let numbers = [11, 1, 0, 1, 0, 0, 2];
        let told = answer(numbers, b"ab", Some(b"rule name cannot be empty"));
        assert!(told.is_ok_and(|verdict| !verdict.is_accepted()));
        assert_eq!(answer(numbers, b"ab", None), Err(Refusal::Unknown(numbers)));
    }

    #[test]
    fn answers_for_a_path_outside_the_format_are_unknown() {
        for numbers in [
            [0, 0, 0, 0, 0, 0, 0],
            [0, 0, 0, 0, 0, 2, 0],
            [2, 0, 1, 0, 0, 0, 0],
            [5, 0, 0, 0, 0, 0, 0],
            [18, 0, 0, 0, 0, 0, 0],
            [18, 0, 14, 0, 0, 0, 0],
            [18, 1, 13, 0, 0, 0, 0],
            [18, 0, 13, 0, 0, 1, 0],
        ] {
            assert_eq!(path_answer(numbers), Err(Refusal::Unknown(numbers)));
        }
    }
}
