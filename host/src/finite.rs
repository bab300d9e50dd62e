//! Whether a number's text is finite.

use crate::raw;

/// What the test of a number's text answers.
#[derive(Clone, Copy, Debug, PartialEq, Eq, Hash)]
pub struct Finite {
    /// Whether it is a number, all of it, whose magnitude is below 2^1024 - 2^970.
    pub is_finite: bool,
    /// How many of its digits were compared with those of 2^1024 - 2^970: none unless its first nonzero digit is at 10^308, else those up to
    /// and with the first that differs. At most 309.
    pub compared: u32,
}

/// Tests whether a text is a finite number, by the place of its first nonzero digit and, only where that is 10^308, by its digits.
///
/// Under the service semantics a number that is not finite is a defect of a rule ([`DefectNumber::Literal`](crate::DefectNumber::Literal)).
///
/// ```
/// use entity_rules::{finite, Finite};
///
/// assert_eq!(finite("-12.5"), Finite { is_finite: true, compared: 0 });
/// assert_eq!(finite("1.75e308"), Finite { is_finite: true, compared: 3 });
/// assert_eq!(finite("1.8e308"), Finite { is_finite: false, compared: 2 });
/// assert_eq!(finite("9".repeat(500)), Finite { is_finite: false, compared: 0 });
/// assert_eq!(finite("no number"), Finite { is_finite: false, compared: 0 });
/// ```
#[must_use]
pub fn finite(text: impl AsRef<[u8]>) -> Finite {
    let packed = raw::finite(text.as_ref());
    Finite {
        is_finite: packed % 2 == 1,
        compared: packed / 2,
    }
}
