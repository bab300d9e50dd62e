//! The tally of a rule book (docs/FORMAT.md, "Rule books").

use crate::defect::DefectNumber;
use crate::limits::TALLY_BYTES;
use crate::raw;
use crate::refusal::Refusal;
use std::fmt;
use std::iter::Sum;

/// How many numbers there are of a defect.
const DEFECTS: usize = 12;

/// How the sheets of a rule book fared, each as if it were checked alone.
///
/// Every sheet counts once: `read` is the sum of `accepted`, `schema_refused`, `rule_refused` and all of `found`.
///
/// ```
/// use entity_rules::{tally, Book, DefectNumber, Kind, Semantics};
///
/// let book = Book::new().sheet("R,-,-,\nC,1,1,\n").sheet("R,1,-, \nC,1,1,\n").sheet("R");
/// let tally = tally(Kind::Invariant, Semantics::Kernel1, "mill", b"H,0,0,-,0\n", &book)?;
///
/// assert_eq!((tally.read, tally.accepted, tally.rule_refused), (3, 1, 1));
/// assert_eq!(tally.count(DefectNumber::Name), 1);
/// assert_eq!(tally.to_string(), "3 sheets: 1 accepted, 1 with a defect, 1 refused; 4 checks passed");
/// # Ok::<(), entity_rules::Refusal>(())
/// ```
#[derive(Clone, Copy, Debug, Default, PartialEq, Eq, Hash)]
#[non_exhaustive]
pub struct Tally {
    /// How many sheets the book has.
    pub read: u64,
    /// Of how many every check passed.
    pub accepted: u64,
    /// How many were refused by 4: all of them, if the schema sheet is not well formed, else none.
    pub schema_refused: u64,
    /// How many were refused by 5, as not well formed.
    pub rule_refused: u64,
    /// How many have a defect of each number, by rising number from 11 on; [`count`](Tally::count) looks one up.
    pub found: [u64; DEFECTS],
    /// How many checks passed in all, those of sheets with a defect too.
    pub passed: u64,
}

impl Tally {
    /// How many sheets have a defect of that number.
    ///
    /// ```
    /// use entity_rules::{DefectNumber, Tally};
    ///
    /// assert_eq!(Tally::default().count(DefectNumber::Over), 0);
    /// ```
    #[must_use]
    pub fn count(&self, number: DefectNumber) -> u64 {
        let mut rows = DefectNumber::ALL.iter().zip(self.found);
        rows.find(|(one, _)| **one == number)
            .map_or(0, |(_, count)| count)
    }

    /// How many sheets have a defect, of whatever number.
    ///
    /// ```
    /// assert_eq!(entity_rules::Tally::default().defects(), 0);
    /// ```
    #[must_use]
    pub fn defects(&self) -> u64 {
        self.found
            .iter()
            .fold(0, |sum, count| sum.saturating_add(*count))
    }

    /// How many sheets are refused, by 4 or by 5.
    ///
    /// ```
    /// assert_eq!(entity_rules::Tally::default().refused(), 0);
    /// ```
    #[must_use]
    pub const fn refused(&self) -> u64 {
        self.schema_refused.saturating_add(self.rule_refused)
    }

    fn and(self, other: Self) -> Self {
        let mut found = self.found;
        for (count, others) in found.iter_mut().zip(other.found) {
            *count = count.saturating_add(others);
        }
        Self {
            read: self.read.saturating_add(other.read),
            accepted: self.accepted.saturating_add(other.accepted),
            schema_refused: self.schema_refused.saturating_add(other.schema_refused),
            rule_refused: self.rule_refused.saturating_add(other.rule_refused),
            found,
            passed: self.passed.saturating_add(other.passed),
        }
    }
}

impl Sum for Tally {
    /// The tally of all sheets of several books.
    fn sum<I: Iterator<Item = Self>>(tallies: I) -> Self {
        tallies.fold(Self::default(), Self::and)
    }
}

impl fmt::Display for Tally {
    fn fmt(&self, f: &mut fmt::Formatter<'_>) -> fmt::Result {
        let Self {
            read,
            accepted,
            passed,
            ..
        } = self;
        let (defects, refused) = (self.defects(), self.refused());
        let sheets = if *read == 1 { "sheet" } else { "sheets" };
        let checks = if *passed == 1 { "check" } else { "checks" };
        write!(
            f,
            "{read} {sheets}: {accepted} accepted, {defects} with a defect, {refused} refused; {passed} {checks} passed"
        )
    }
}

/// The tally or refusal that a result stands for.
pub(crate) fn answer(result: &[u8; TALLY_BYTES]) -> Result<Tally, Refusal> {
    let number = |index: u32| raw::count(result, index);
    let tally = Tally {
        read: number(1),
        accepted: number(2),
        schema_refused: number(3),
        rule_refused: number(4),
        found: [5, 6, 7, 8, 9, 10, 11, 12, 13, 14, 15, 16].map(number),
        passed: number(17),
    };
    let told = tally.accepted.saturating_add(tally.defects());
    let first = u32::try_from(number(0)).unwrap_or(u32::MAX);
    let unknown = Refusal::Unknown([first, 0, 0, 0, 0, 0, 0]);
    match first {
        0 if told.saturating_add(tally.refused()) == tally.read => Ok(tally),
        34 if tally == Tally::default() => Err(Refusal::BookForm),
        1..=3 | 37 | 38 if tally == Tally::default() => {
            Err(Refusal::from_number(first).unwrap_or(unknown))
        }
        _ => Err(unknown),
    }
}

#[cfg(test)]
mod tests {
    use super::*;

    fn result(numbers: [u64; 18]) -> [u8; TALLY_BYTES] {
        let mut result = [0; TALLY_BYTES];
        for (bytes, number) in result.chunks_mut(8).zip(numbers) {
            bytes.copy_from_slice(&number.to_le_bytes());
        }
        result
    }

    #[test]
    fn numbers_of_eight_bytes_are_read() {
        let large = 1 << 40;
        let mut numbers = [0; 18];
        for (index, number) in [
            (1, large + 7),
            (2, large),
            (3, 1),
            (4, 2),
            (5, 3),
            (16, 1),
            (17, u64::MAX),
        ] {
            numbers[index] = number;
        }
        let tally = answer(&result(numbers)).unwrap();
        assert_eq!(
            (tally.read, tally.accepted, tally.refused()),
            (large + 7, large, 3)
        );
        assert_eq!(tally.defects(), 4);
        assert_eq!(tally.count(DefectNumber::Name), 3);
        assert_eq!(tally.count(DefectNumber::Over), 1);
        assert_eq!(tally.passed, u64::MAX);
    }

    #[test]
    fn answers_outside_the_format_are_unknown() {
        for (index, number) in [
            (0, 4),
            (0, 5),
            (0, 35),
            (0, 1 << 32),
            (1, 1),
            (2, 1),
            (16, 1),
        ] {
            let mut numbers = [0; 18];
            numbers[index] = number;
            assert!(matches!(answer(&result(numbers)), Err(Refusal::Unknown(_))));
        }
        let mut refused = [0; 18];
        (refused[0], refused[17]) = (34, 1);
        assert!(matches!(answer(&result(refused)), Err(Refusal::Unknown(_))));
    }
}
