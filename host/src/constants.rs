//! Conditions that have the same truth whatever a record holds (docs/FORMAT.md, "Constant marks").

use crate::limits::MARKS_BYTES;
use crate::raw;
use std::fmt;

/// A condition `before` or `after` with two literal instants, which has the same truth whatever a record holds.
///
/// ```
/// use entity_rules::{Check, Condition, Constant, Kind, Rule, Schema, Semantics};
///
/// // Drawn after the one day, and the other day before a third: the second says nothing about the record.
/// let rule = Rule::new(Condition::all([
///     Condition::after("$fields.drawn", "2024-02-29"),
///     Condition::before("2024-02-29", "2024-03-01"),
/// ]));
/// let check = Check::new(Kind::Invariant, Semantics::Kernel1, "season");
/// let checked = check.run(&Schema::new().open().sheet()?, &rule.sheet()?)?;
///
/// assert!(checked.verdict.is_accepted());
/// assert_eq!(checked.constants, [Constant { entry: 6, holds: true }]);
/// assert_eq!(checked.constants[0].to_string(), "entry 6 is always true");
/// # Ok::<(), Box<dyn std::error::Error>>(())
/// ```
#[derive(Clone, Copy, Debug, PartialEq, Eq, Hash, PartialOrd, Ord)]
pub struct Constant {
    /// The entry of the condition in the rule sheet, from 1.
    pub entry: u32,
    /// Its truth.
    pub holds: bool,
}

impl fmt::Display for Constant {
    fn fmt(&self, f: &mut fmt::Formatter<'_>) -> fmt::Result {
        write!(f, "entry {} is always {}", self.entry, self.holds)
    }
}

/// The conditions that the first so many marks of a list stand for; none where the list has no room for as many.
pub(crate) fn constants(marks: &[u8], count: u32) -> Option<Vec<Constant>> {
    let room = u32::try_from(MARKS_BYTES).ok()?.checked_div(4)?;
    let constant = |index| {
        let mark = raw::field(marks, index);
        Constant {
            entry: mark >> 1,
            holds: mark & 1 == 1,
        }
    };
    (count <= room).then(|| (0..count).map(constant).collect())
}

#[cfg(test)]
mod tests {
    use super::*;

    #[test]
    fn marks_are_taken_apart() {
        let marks = [4, 0, 0, 0, 1, 8, 0, 0, 9, 9, 9, 9];
        let found = [(2, false), (1024, true)].map(|(entry, holds)| Constant { entry, holds });
        assert_eq!(constants(&marks, 2), Some(found.to_vec()));
        assert_eq!(constants(&marks, 0), Some(Vec::new()));
        assert_eq!(constants(&marks, 2_049), None);
    }
}
