//! The parts that entries are made of, read one after the other.

use super::content::{Content, Entry, Malformed};
use crate::limits::MAX_TEXT_BYTES;
use crate::vocabulary::Nesting;
use std::collections::HashSet;

pub type Read<T> = Result<T, Malformed>;

/// Reads all entries of a sheet.
pub type Entries = for<'a> fn(&mut Reader<'a>) -> Read<()>;

/// The length that an entry gives for its text, or for both of its texts.
#[derive(Clone, Copy)]
pub struct Given {
    pub entry: usize,
    /// What the last text is.
    pub what: &'static str,
    /// The place of the numeral of the last length.
    pub byte: usize,
    pub last: usize,
    /// How many texts have a length, and all of these lengths.
    pub texts: usize,
    pub total: usize,
    /// Where the texts begin.
    pub start: usize,
}

/// What is left of a sheet, and the entries before it.
pub struct Reader<'a> {
    sheet: &'a [u8],
    rest: &'a [u8],
    entries: Vec<Entry<'a>>,
    /// How many entries the sheet may have.
    limit: usize,
    /// The byte at which the entry begins that is being read.
    begun: Option<usize>,
    /// The lengths that it gives for its texts.
    given: Option<Given>,
    /// Those of the entries before it whose texts have a line end.
    suspects: Vec<Given>,
}

/// Each of these takes what it reads off the sheet.
impl<'a> Reader<'a> {
    pub fn new(sheet: &'a [u8], limit: usize) -> Self {
        Self {
            sheet,
            rest: sheet,
            entries: Vec::new(),
            limit,
            begun: None,
            given: None,
            suspects: Vec::new(),
        }
    }

    /// The entries that were read.
    pub fn entries(self) -> Vec<Entry<'a>> {
        self.entries
    }

    /// The whole sheet, and how many entries it may have.
    pub fn sheet(&self) -> (&'a [u8], usize) {
        (self.sheet, self.limit)
    }

    /// The lengths that may be wrong, the latest first: those of the entry that is being read, and of texts that go past a line's end.
    pub fn lengths(&self) -> impl Iterator<Item = Given> {
        let suspects = self.suspects.iter().rev();
        self.given.iter().chain(suspects).copied()
    }

    /// The first byte of the sheet.
    pub fn first(&self) -> Option<u8> {
        self.sheet.first().copied()
    }

    pub fn byte(&self) -> usize {
        self.sheet.len().saturating_sub(self.rest.len())
    }

    pub fn fail<T>(&self, expected: impl Into<String>) -> Read<T> {
        self.fail_at(self.byte(), expected)
    }

    pub fn fail_at<T>(&self, byte: usize, expected: impl Into<String>) -> Read<T> {
        Err(Malformed {
            entry: self.entries.len().saturating_add(1),
            byte,
            expected: expected.into(),
        })
    }

    /// Takes these bytes off the sheet, if they are next.
    fn take(&mut self, bytes: &[u8]) -> bool {
        match self.rest.strip_prefix(bytes) {
            Some(rest) => {
                self.rest = rest;
                true
            }
            None => false,
        }
    }

    /// The letter that begins an entry.
    pub fn begin(&mut self, letter: &str, what: &str) -> Read<()> {
        let start = self.byte();
        if self.entries.len() >= self.limit {
            return self.fail(format!("at most {} entries in the sheet", self.limit));
        }
        if !self.take(letter.as_bytes()) {
            return self.fail(format!("`{letter}`, {what}"));
        }
        self.begun = Some(start);
        Ok(())
    }

    pub fn comma(&mut self) -> Read<()> {
        match self.take(b",") {
            true => Ok(()),
            false => self.fail("a comma"),
        }
    }

    /// The end of an entry, which says this.
    pub fn end(&mut self, content: Content<'a>) -> Read<()> {
        if !self.take(b"\n") {
            return self.fail(match self.rest.first() {
                Some(b'\r') => "the end of the entry, byte 0A alone, not 0D before it",
                _ => "the end of the entry, byte 0A",
            });
        }
        let byte = self.begun.take().unwrap_or_default();
        self.entries.push(Entry { byte, content });
        if let Some(given) = self.given.take() {
            let texts = self.sheet.get(given.start..).unwrap_or_default();
            let has_end = texts.iter().take(given.total).any(|&byte| byte == b'\n');
            self.suspects.extend(has_end.then_some(given));
        }
        Ok(())
    }

    pub fn end_of_sheet(&self) -> Read<()> {
        match self.rest.is_empty() {
            true => Ok(()),
            false => self.fail("the end of the sheet"),
        }
    }

    /// A comma, then a numeral from `least` to `most`.
    pub fn numeral(&mut self, least: usize, most: usize, expected: &str) -> Read<usize> {
        self.comma()?;
        let start = self.byte();
        let count = self
            .rest
            .iter()
            .take_while(|byte| byte.is_ascii_digit())
            .count();
        let (digits, rest) = self.rest.split_at_checked(count).unwrap_or_default();
        match value(digits).filter(|value| (least..=most).contains(value)) {
            Some(value) => {
                self.rest = rest;
                Ok(value)
            }
            None => self.fail_at(start, expected),
        }
    }

    /// A comma, then `-` or a numeral.
    pub fn numeral_or_dash(&mut self, most: usize, expected: &str) -> Read<Option<usize>> {
        match self.take(b",-") {
            true => Ok(None),
            false => self.numeral(0, most, expected).map(Some),
        }
    }

    pub fn mark(&mut self, expected: &str) -> Read<bool> {
        Ok(self.numeral(0, 1, expected)? == 1)
    }

    pub fn count(&mut self, what: &str) -> Read<usize> {
        let most = self.limit;
        self.numeral(0, most, &format!("how many {what}, a numeral up to {most}"))
    }

    pub fn length(&mut self, what: &'static str) -> Read<usize> {
        let byte = self.byte().saturating_add(1);
        let length = self.numeral(0, MAX_TEXT_BYTES, &length_of(what))?;
        self.give(what, byte, length);
        Ok(length)
    }

    pub fn length_or_dash(&mut self, what: &'static str) -> Read<Option<usize>> {
        let expected = format!("{}, or `-`", length_of(what));
        let byte = self.byte().saturating_add(1);
        let length = self.numeral_or_dash(MAX_TEXT_BYTES, &expected)?;
        if let Some(length) = length {
            self.give(what, byte, length);
        }
        Ok(length)
    }

    /// Notes a length and its place.
    fn give(&mut self, what: &'static str, byte: usize, last: usize) {
        let (texts, total) = self
            .given
            .map_or((0, 0), |given| (given.texts, given.total));
        self.given = Some(Given {
            entry: self.entries.len().saturating_add(1),
            what,
            byte,
            last,
            texts: texts.saturating_add(1),
            total: total.saturating_add(last),
            start: usize::MAX,
        });
    }

    pub fn text(&mut self, length: usize, what: &str) -> Read<&'a str> {
        let byte = self.byte();
        if let Some(given) = &mut self.given {
            given.start = given.start.min(byte);
        }
        let Some((bytes, rest)) = self.rest.split_at_checked(length) else {
            return self.fail(format!("{what} of {length} bytes, but the sheet ends"));
        };
        match std::str::from_utf8(bytes) {
            Ok(text) => {
                self.rest = rest;
                Ok(text)
            }
            Err(error) => {
                let byte = self.byte().saturating_add(error.valid_up_to());
                self.fail_at(byte, format!("{what} that is UTF-8"))
            }
        }
    }

    pub fn text_or_absent(&mut self, length: Option<usize>, what: &str) -> Read<Option<&'a str>> {
        length.map(|length| self.text(length, what)).transpose()
    }

    /// Refuses what nests too deep.
    pub fn nests(&self, depth: usize, nesting: Nesting) -> Read<()> {
        match depth <= nesting.limit() {
            true => Ok(()),
            false => self.fail(format!(
                "{nesting} that nest at most {} deep",
                nesting.limit()
            )),
        }
    }

    /// Refuses a name that does not come after the one before it. The fault is where the entry begins.
    pub fn rises(&self, before: Option<&str>, name: &str) -> Read<()> {
        match before {
            Some(before) if name.as_bytes() <= before.as_bytes() => self.fail_at(
                self.begun.unwrap_or_default(),
                format!("a name that comes after {before:?} by bytes, not {name:?}"),
            ),
            _ => Ok(()),
        }
    }

    /// Refuses a key that was met before. The fault is where the entry begins.
    pub fn is_new(&self, met: &mut HashSet<&'a str>, key: &'a str) -> Read<()> {
        match met.insert(key) {
            true => Ok(()),
            false => self.fail_at(
                self.begun.unwrap_or_default(),
                format!("a key that the object does not have yet, not {key:?}"),
            ),
        }
    }
}

fn length_of(what: &str) -> String {
    format!("the length of {what}, a numeral up to 512")
}

/// The value of a numeral without leading zeros. A value past the largest counts as the largest, which no numeral may reach.
fn value(digits: &[u8]) -> Option<usize> {
    match digits {
        [] | [b'0', _, ..] => None,
        digits => Some(digits.iter().fold(0, |value: usize, digit| {
            let digit = usize::from(digit.saturating_sub(b'0'));
            value.saturating_mul(10).saturating_add(digit)
        })),
    }
}
