//! Instants (docs/FORMAT.md, "Instants").

use super::text::trim;

/// What an instant's text says; what it leaves out is 0.
#[derive(Clone, Copy, Debug, Default, PartialEq, Eq, PartialOrd, Ord)]
pub struct Instant {
    pub year: u32,
    pub month: u32,
    pub day: u32,
    pub hour: u32,
    pub minute: u32,
    pub second: u32,
    pub nanosecond: u32,
}

/// Reads an instant, the white space around it set aside.
pub fn parse(text: &str) -> Option<Instant> {
    let text = trim(text).as_bytes();
    let (date, rest) = text.split_at_checked(10)?;
    let [year, month, day] = date_of(date)?;
    let day_only = Instant {
        year,
        month,
        day,
        ..Instant::default()
    };
    let Some((separator, time)) = rest.split_first() else {
        return Some(day_only);
    };
    if !matches!(separator, b'T' | b't' | b' ') {
        return None;
    }
    let time = time
        .strip_suffix(b"Z")
        .or(time.strip_suffix(b"z"))
        .unwrap_or(time);
    let (clock, fraction) = time.split_at_checked(8)?;
    let [hour, minute, second] = clock_of(clock)?;
    let nanosecond = match fraction.split_first() {
        None => 0,
        Some((b'.', digits)) => nanoseconds(digits)?,
        Some(_) => return None,
    };
    Some(Instant {
        hour,
        minute,
        second,
        nanosecond,
        ..day_only
    })
}

/// `YYYY-MM-DD`, a day of the Gregorian calendar.
fn date_of(text: &[u8]) -> Option<[u32; 3]> {
    if text[4] != b'-' || text[7] != b'-' {
        return None;
    }
    let year = digits(&text[..4])?;
    let month = digits(&text[5..7])?;
    let day = digits(&text[8..])?;
    (1 <= day && day <= days_of(year, month)).then_some([year, month, day])
}

/// How many days the month has; none where there is no such month.
fn days_of(year: u32, month: u32) -> u32 {
    let leap = matches!((year % 4, year % 100, year % 400), (_, _, 0) | (0, 1.., _));
    match month {
        1 | 3 | 5 | 7 | 8 | 10 | 12 => 31,
        4 | 6 | 9 | 11 => 30,
        2 if leap => 29,
        2 => 28,
        _ => 0,
    }
}

/// `HH:MM:SS`; second 60 may occur at any time.
fn clock_of(text: &[u8]) -> Option<[u32; 3]> {
    if text[2] != b':' || text[5] != b':' {
        return None;
    }
    let hour = digits(&text[..2])?;
    let minute = digits(&text[3..5])?;
    let second = digits(&text[6..])?;
    (hour <= 23 && minute <= 59 && second <= 60).then_some([hour, minute, second])
}

/// 1 to 9 digits of a second's fraction.
fn nanoseconds(text: &[u8]) -> Option<u32> {
    if text.is_empty() || text.len() > 9 {
        return None;
    }
    let missing = 9 - text.len() as u32;
    Some(digits(text)? * 10_u32.pow(missing))
}

/// The natural written by at most nine digits.
fn digits(text: &[u8]) -> Option<u32> {
    text.iter().try_fold(0, |value, byte| {
        byte.is_ascii_digit()
            .then(|| value * 10 + u32::from(byte - b'0'))
    })
}

#[cfg(test)]
mod tests {
    use super::*;

    #[test]
    fn readable() {
        for text in [
            "2024-02-29",
            "0000-02-29",
            "2000-02-29",
            "9999-12-31",
            "2024-01-31T00:00:00",
            "2024-01-31t23:59:60",
            "2024-01-31 12:30:60",
            "2024-01-31T00:00:00.1",
            "2024-01-31T00:00:00.123456789",
            "2024-01-31T00:00:00.123456789Z",
            "2024-01-31T00:00:00Z",
            "2024-01-31T00:00:00z",
            " 2024-01-31 ",
            "\u{3000}2024-01-31 00:00:00\n",
        ] {
            assert!(parse(text).is_some(), "{text:?}");
        }
    }

    #[test]
    fn unreadable() {
        for text in [
            "",
            "2024",
            "2023-02-29",
            "1900-02-29",
            "2024-02-30",
            "2024-04-31",
            "2024-00-10",
            "2024-13-10",
            "2024-01-00",
            "2024-01-32",
            "24-01-01",
            "02024-01-01",
            "2024-1-01",
            "2024/01/01",
            "+2024-01-01",
            "2024-01-01Z",
            "2024-01-01T",
            "2024-01-01T00:00",
            "2024-01-01T24:00:00",
            "2024-01-01T00:60:00",
            "2024-01-01T00:00:61",
            "2024-01-01T00:00:00.",
            "2024-01-01T00:00:00.Z",
            "2024-01-01T00:00:00.1234567890",
            "2024-01-01T00:00:00ZZ",
            "2024-01-01T00:00:00Zz",
            "2024-01-01T00:00:00 Z",
            "2024-01-01T00:00:00+00:00",
            "2024-01-01T00:00:00-01",
            "2024-01-01  00:00:00",
            "2024-01-01x00:00:00",
            "2024-01-01T00:00:00,5",
            "\u{200B}2024-01-01",
            "２024-01-01",
            "2024-01-0é",
        ] {
            assert_eq!(parse(text), None, "{text:?}");
        }
    }

    #[test]
    fn what_is_left_out_is_zero() {
        let day = Instant {
            year: 2024,
            month: 2,
            day: 29,
            ..Instant::default()
        };
        assert_eq!(parse("2024-02-29"), Some(day));
        assert_eq!(
            parse("2024-02-29 01:02:03.04"),
            Some(Instant {
                hour: 1,
                minute: 2,
                second: 3,
                nanosecond: 40_000_000,
                ..day
            })
        );
    }
}
