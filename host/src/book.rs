//! Rule books (docs/FORMAT.md, "Rule books").

use crate::refusal::Refusal;
use std::fmt;

/// A rule book: sheets of rules and templates one after another, each with its length and a comma before it.
///
/// ```
/// use entity_rules::{tally, Book, Condition, DefectNumber, Kind, Rule, Schema, Semantics};
///
/// let schema = Schema::new().sheet()?;
/// let always = Rule::new(Condition::literal(true)).sheet()?;
/// let named = Rule::new(Condition::exists("$fields.name")).sheet()?;
/// let book = Book::new().sheet(&always).sheet(&named);
///
/// let tally = tally(Kind::Invariant, Semantics::Service1, "mill", &schema, &book)?;
/// assert_eq!((tally.read, tally.accepted), (2, 1));
/// assert_eq!(tally.count(DefectNumber::Reference), 1);
/// # Ok::<(), Box<dyn std::error::Error>>(())
/// ```
#[derive(Clone, Debug, Default, PartialEq, Eq, Hash)]
pub struct Book {
    bytes: Vec<u8>,
}

impl Book {
    /// A book without sheets.
    ///
    /// ```
    /// assert_eq!(entity_rules::Book::new().bytes(), b"");
    /// ```
    #[must_use]
    pub const fn new() -> Self {
        Self { bytes: Vec::new() }
    }

    /// The book with one more sheet. What its bytes are is left to the check.
    ///
    /// ```
    /// use entity_rules::Book;
    ///
    /// assert_eq!(Book::new().sheet("T\nV,1,0,\n").sheet("").bytes(), b"9,T\nV,1,0,\n0,");
    /// ```
    #[must_use]
    pub fn sheet(mut self, sheet: impl AsRef<[u8]>) -> Self {
        self.extend([sheet]);
        self
    }

    /// The book as it is in a file.
    ///
    /// ```
    /// let book: entity_rules::Book = ["T\nV,1,0,\n"; 2].into_iter().collect();
    /// assert_eq!(book.bytes(), b"9,T\nV,1,0,\n9,T\nV,1,0,\n");
    /// ```
    #[must_use]
    pub fn bytes(&self) -> &[u8] {
        &self.bytes
    }

    /// The sheets of a file that is a book.
    ///
    /// Whether it is one, the library decides. This reading serves to show the sheets, or where a file stops being a book.
    ///
    /// ```
    /// use entity_rules::Book;
    ///
    /// let sheets = Book::read(b"9,T\nV,1,0,\n0,")?;
    /// assert_eq!(sheets.iter().map(|sheet| sheet.bytes).collect::<Vec<_>>(), [&b"T\nV,1,0,\n"[..], b""]);
    /// assert_eq!(sheets.iter().map(|sheet| sheet.byte).collect::<Vec<_>>(), [2, 13]);
    ///
    /// let error = Book::read(b"9,T\nV,1,0,\n09,T\nV,1,0,\n").unwrap_err();
    /// assert_eq!(error.to_string(), "sheet 2, byte 11: expected a length without a 0 before it");
    /// # Ok::<(), entity_rules::BookError>(())
    /// ```
    ///
    /// # Errors
    ///
    /// If the bytes are not a book.
    pub fn read(file: &[u8]) -> Result<Vec<BookSheet<'_>>, BookError> {
        let mut sheets = Vec::new();
        let mut at = 0;
        while at < file.len() {
            let fault = |(byte, expected)| BookError {
                sheet: sheets.len().saturating_add(1),
                byte,
                expected,
            };
            let sheet = next_sheet(file, at).map_err(fault)?;
            at = sheet.byte.saturating_add(sheet.bytes.len());
            sheets.push(sheet);
        }
        Ok(sheets)
    }
}

impl AsRef<[u8]> for Book {
    fn as_ref(&self) -> &[u8] {
        &self.bytes
    }
}

impl<S: AsRef<[u8]>> Extend<S> for Book {
    fn extend<I: IntoIterator<Item = S>>(&mut self, sheets: I) {
        for sheet in sheets {
            let sheet = sheet.as_ref();
            self.bytes.extend(format!("{},", sheet.len()).into_bytes());
            self.bytes.extend(sheet);
        }
    }
}

impl<S: AsRef<[u8]>> FromIterator<S> for Book {
    fn from_iter<I: IntoIterator<Item = S>>(sheets: I) -> Self {
        let mut book = Self::new();
        book.extend(sheets);
        book
    }
}

/// A sheet of a book, and where it begins.
///
/// ```
/// use entity_rules::{Book, BookSheet};
///
/// assert_eq!(Book::read(b"2,T\n"), Ok(vec![BookSheet { byte: 2, bytes: b"T\n" }]));
/// ```
#[derive(Clone, Copy, Debug, PartialEq, Eq)]
pub struct BookSheet<'a> {
    /// How many bytes of the file come before it.
    pub byte: usize,
    /// The sheet, well formed or not.
    pub bytes: &'a [u8],
}

/// Where a file stops being a rule book, and what was expected there.
///
/// ```
/// use entity_rules::{Book, Refusal};
///
/// let error = Book::read(b"2,T\n7;T\n").unwrap_err();
/// assert_eq!((error.sheet, error.byte), (2, 5));
/// assert_eq!(error.to_string(), "sheet 2, byte 5: expected a comma after the length");
/// assert_eq!(error.refusal(), Refusal::BookForm);
/// ```
#[derive(Clone, Debug, PartialEq, Eq)]
pub struct BookError {
    /// The sheet that is not one, from 1.
    pub sheet: usize,
    /// How many bytes of the file come before the fault.
    pub byte: usize,
    /// What was expected there.
    pub expected: String,
}

impl BookError {
    /// The refusal that it explains.
    ///
    /// ```
    /// assert_eq!(entity_rules::Book::read(b",").unwrap_err().refusal().number(), 34);
    /// ```
    #[must_use]
    pub const fn refusal(&self) -> Refusal {
        Refusal::BookForm
    }
}

impl fmt::Display for BookError {
    fn fmt(&self, f: &mut fmt::Formatter<'_>) -> fmt::Result {
        let Self {
            sheet,
            byte,
            expected,
        } = self;
        write!(f, "sheet {sheet}, byte {byte}: expected {expected}")
    }
}

impl std::error::Error for BookError {}

/// The sheet whose length begins at a byte, or the byte at fault and what was expected there.
fn next_sheet(file: &[u8], at: usize) -> Result<BookSheet<'_>, (usize, String)> {
    let rest = file.get(at..).unwrap_or_default();
    let count = rest.iter().take_while(|byte| byte.is_ascii_digit()).count();
    let (digits, after) = rest.split_at_checked(count).unwrap_or_default();
    match digits {
        [] => return Err((at, "a length, digits, before the sheet".to_owned())),
        [b'0', _, ..] => return Err((at, "a length without a 0 before it".to_owned())),
        _ => {}
    }
    let comma = at.saturating_add(count);
    let Some((b',', sheet)) = after.split_first() else {
        return Err((comma, "a comma after the length".to_owned()));
    };
    let left = sheet.len();
    let length = std::str::from_utf8(digits).unwrap_or_default();
    let bytes = length.parse().ok().and_then(|length| sheet.get(..length));
    let bytes = bytes.ok_or_else(|| {
        let expected =
            format!("a length of at most {left}, what is left of the file, not {length}");
        (at, expected)
    })?;
    let byte = comma.saturating_add(1);
    Ok(BookSheet { byte, bytes })
}

#[cfg(test)]
mod tests {
    use super::*;

    #[test]
    fn what_is_written_is_read() {
        for sheets in [&[][..], &[""], &["", "", "a"], &["1,", "0,", ",,", "12"]] {
            let book: Book = sheets.iter().collect();
            let read = Book::read(book.bytes()).unwrap();
            let read: Vec<&[u8]> = read.iter().map(|sheet| sheet.bytes).collect();
            let sheets: Vec<&[u8]> = sheets.iter().map(|sheet| sheet.as_bytes()).collect();
            assert_eq!(read, sheets);
        }
    }

    #[test]
    fn faults_stand_where_the_form_breaks() {
        for (file, told) in [
            (
                "R",
                "sheet 1, byte 0: expected a length, digits, before the sheet",
            ),
            (
                ",",
                "sheet 1, byte 0: expected a length, digits, before the sheet",
            ),
            (
                "2,ab\n",
                "sheet 2, byte 4: expected a length, digits, before the sheet",
            ),
            (
                "00,",
                "sheet 1, byte 0: expected a length without a 0 before it",
            ),
            (
                "0,01,a",
                "sheet 2, byte 2: expected a length without a 0 before it",
            ),
            ("1", "sheet 1, byte 1: expected a comma after the length"),
            ("1 ,a", "sheet 1, byte 1: expected a comma after the length"),
            (
                "0,3,ab",
                "sheet 2, byte 2: expected a length of at most 2, what is left of the file, not 3",
            ),
            (
                "18446744073709551616,",
                "sheet 1, byte 0: expected a length of at most 0, what is left of the file, not 18446744073709551616",
            ),
        ] {
            assert_eq!(Book::read(file.as_bytes()).unwrap_err().to_string(), told);
        }
    }
}
