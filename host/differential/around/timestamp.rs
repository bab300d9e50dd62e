//! Stand-in for the instant reader, which is not available. Written from docs/FORMAT.md, "Instants".
//!
//! It goes another way than a table of month lengths: the fields are taken by position, a date must survive the way to a day number and back,
//! and the text must be what the fields are written as.

/// The fields that were read; what the text leaves out is 0.
#[derive(Clone, Copy, Debug, PartialEq, Eq)]
pub struct Instant {
    pub year: i64,
    pub month: i64,
    pub day: i64,
    pub hour: i64,
    pub minute: i64,
    pub second: i64,
    pub nanosecond: i64,
}

pub fn parse(text: &str) -> Option<Instant> {
    let text = text.trim();
    let date = text.get(..10)?;
    let time = &text[10..];
    let mut instant = read_date(date)?;
    if !time.is_empty() {
        read_time(time, &mut instant)?;
    }
    Some(instant)
}

fn read_date(date: &str) -> Option<Instant> {
    let (year, month, day) = (digits(date, 0, 4)?, digits(date, 5, 7)?, digits(date, 8, 10)?);
    let written = format!("{year:04}-{month:02}-{day:02}");
    if written != date || civil_of(days_of(year, month, day)) != (year, month, day) {
        return None;
    }
    Some(Instant { year, month, day, hour: 0, minute: 0, second: 0, nanosecond: 0 })
}

/// A separator, hours to seconds, at most one fraction, at most one zone letter.
fn read_time(time: &str, instant: &mut Instant) -> Option<()> {
    let clock = time.strip_prefix(['T', 't', ' '])?;
    let clock = clock.strip_suffix(['Z', 'z']).unwrap_or(clock);
    let (whole, fraction) = match clock.split_once('.') {
        Some((whole, fraction)) => (whole, read_fraction(fraction)?),
        None => (clock, 0),
    };
    let (hour, minute, second) = (digits(whole, 0, 2)?, digits(whole, 3, 5)?, digits(whole, 6, 8)?);
    if format!("{hour:02}:{minute:02}:{second:02}") != whole || hour > 23 || minute > 59 || second > 60 {
        return None;
    }
    (instant.hour, instant.minute, instant.second, instant.nanosecond) = (hour, minute, second, fraction);
    Some(())
}

fn read_fraction(fraction: &str) -> Option<i64> {
    if fraction.is_empty() || fraction.len() > 9 {
        return None;
    }
    digits(&format!("{fraction:0<9}"), 0, 9)
}

fn digits(text: &str, from: usize, to: usize) -> Option<i64> {
    let part = text.get(from..to)?;
    part.bytes().all(|byte| byte.is_ascii_digit()).then(|| part.parse().ok())?
}

/// The day number of a date, months past the year's end or day 0 carrying over; 0000-03-01 is day 0.
fn days_of(year: i64, month: i64, day: i64) -> i64 {
    let moved = month - 3;
    let year = year + moved.div_euclid(12);
    let day_of_year = (153 * moved.rem_euclid(12) + 2) / 5 + day - 1;
    365 * year + year.div_euclid(4) - year.div_euclid(100) + year.div_euclid(400) + day_of_year
}

/// The Gregorian date of a day number.
fn civil_of(days: i64) -> (i64, i64, i64) {
    let era = days.div_euclid(146_097);
    let day = days.rem_euclid(146_097);
    let year = (day - day / 1_460 + day / 36_524 - day / 146_096) / 365;
    let day_of_year = day - (365 * year + year / 4 - year / 100);
    let moved = (5 * day_of_year + 2) / 153;
    let month = if moved < 10 { moved + 3 } else { moved - 9 };
    let year = year + era * 400 + i64::from(month <= 2);
    (year, month, day_of_year - (153 * moved + 2) / 5 + 1)
}
