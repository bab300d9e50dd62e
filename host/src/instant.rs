//! The fields of an instant.

use crate::limits::RESULT_BYTES;
use crate::raw;
use std::fmt;

/// What the text of an instant says; what it leaves out is 0.
///
/// Instants order by their fields, year first. They are displayed with a time and `Z`, and the digits of the fraction that are needed, so that
/// [`instant`] reads from it the same fields:
///
/// ```
/// use entity_rules::instant;
///
/// let leap = instant("2016-12-31 23:59:60.250").ok_or("an instant")?;
/// assert_eq!(leap.to_string(), "2016-12-31T23:59:60.25Z");
/// assert_eq!(instant(leap.to_string()), Some(leap));
/// assert!(Some(leap) < instant("2017-01-01"));
/// # Ok::<(), &str>(())
/// ```
#[derive(Clone, Copy, Debug, PartialEq, Eq, Hash, PartialOrd, Ord)]
pub struct Instant {
    /// 0 to 9999.
    pub year: u32,
    /// 1 to 12.
    pub month: u32,
    /// From 1 to the last of the month, by the Gregorian calendar.
    pub day: u32,
    /// 0 to 23.
    pub hour: u32,
    /// 0 to 59.
    pub minute: u32,
    /// 0 to 60; 60 may occur at any time of day.
    pub second: u32,
    /// 0 to 999,999,999.
    pub nanoseconds: u32,
}

impl fmt::Display for Instant {
    fn fmt(&self, f: &mut fmt::Formatter<'_>) -> fmt::Result {
        let Self {
            year,
            month,
            day,
            hour,
            minute,
            second,
            nanoseconds,
        } = self;
        let fraction = match nanoseconds {
            0 => String::new(),
            _ => format!(".{nanoseconds:09}"),
        };
        let fraction = fraction.trim_end_matches('0');
        f.pad(&format!(
            "{year:04}-{month:02}-{day:02}T{hour:02}:{minute:02}:{second:02}{fraction}Z"
        ))
    }
}

/// Reads an instant: `YYYY-MM-DD`, alone or with a time, white space around it set aside.
///
/// A time is `T`, `t` or a space, then `HH:MM:SS`, then a dot with up to 9 digits and a `Z` or `z` if wanted; it has no offset. What is read here is what
/// `before` and `after` take as an operand; any other text there is a defect ([`DefectNumber::Instant`](crate::DefectNumber::Instant)).
///
/// ```
/// use entity_rules::{instant, Instant};
///
/// let noon = Instant { year: 2024, month: 2, day: 29, hour: 12, minute: 0, second: 0, nanoseconds: 5_000_000 };
/// assert_eq!(instant(" 2024-02-29T12:00:00.005Z"), Some(noon));
/// assert_eq!(instant("2024-02-29"), Some(Instant { hour: 0, nanoseconds: 0, ..noon }));
/// assert_eq!(instant("2023-02-29"), None);
/// assert_eq!(instant("2024-02-29T12:00:00+01:00"), None);
/// ```
#[must_use]
pub fn instant(text: impl AsRef<[u8]>) -> Option<Instant> {
    let mut fields = [0; RESULT_BYTES];
    if raw::instant(text.as_ref(), &mut fields) != 0 {
        return None;
    }
    let [year, month, day, hour, minute, second, nanoseconds] = raw::numbers(&fields);
    Some(Instant {
        year,
        month,
        day,
        hour,
        minute,
        second,
        nanoseconds,
    })
}
