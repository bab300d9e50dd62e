//! Rule books to tally.

pub mod edges;
pub mod generate;

use crate::case::Case;
use crate::limits::MIN_PATH_BYTES;
use crate::shrink::shorter;
use model::{sheets, write_book, BookCall, TallyNumbers, TALLY_BYTES};

/// What a caller of `rulecheck_tally` hands over, and what is known of the answer beforehand.
#[derive(Clone, Debug, PartialEq, Eq)]
pub struct BookCase {
    pub kind: u64,
    pub semantics: u64,
    pub label: Vec<u8>,
    pub table: Vec<u8>,
    pub schema: Vec<u8>,
    pub book: Vec<u8>,
    pub path_len: usize,
    pub result_len: usize,
    pub expect: Expect,
}

/// What follows from the way a book was made.
#[derive(Clone, Copy, Debug, PartialEq, Eq)]
pub enum Expect {
    Anything,
    /// That many sheets are read.
    Read(usize),
    /// The whole run is refused.
    Refused(u32),
}

impl Expect {
    pub fn allows(self, numbers: &TallyNumbers) -> bool {
        match self {
            Self::Anything => true,
            Self::Read(sheets) => numbers[..2] == [0, sheets as u64],
            Self::Refused(number) => numbers[0] == u64::from(number),
        }
    }
}

impl BookCase {
    /// The book of these sheets, with the settings, table and schema of a case and buffers that are wide enough.
    pub fn new(case: &Case, sheets: &[Vec<u8>]) -> Self {
        Self {
            kind: case.kind,
            semantics: case.semantics,
            label: case.label.clone(),
            table: case.table.clone(),
            schema: case.schema.clone(),
            book: write_book(sheets),
            path_len: MIN_PATH_BYTES,
            result_len: TALLY_BYTES,
            expect: Expect::Read(sheets.len()),
        }
    }

    /// Label, table, schema and book.
    pub fn inputs(&self) -> [&[u8]; 4] {
        [&self.label, &self.table, &self.schema, &self.book]
    }

    pub fn call(&self) -> BookCall<'_> {
        BookCall {
            kind: self.kind,
            semantics: self.semantics,
            label: &self.label,
            table: &self.table,
            schema: &self.schema,
            book: &self.book,
            path_len: self.path_len,
            result_len: self.result_len,
        }
    }

    pub fn print(&self) {
        let Self { kind, semantics, path_len, result_len, .. } = self;
        println!("kind {kind}, semantics {semantics}, a path buffer of {path_len} bytes, a result of {result_len}");
        for (name, part) in ["label", "table", "schema", "book"].into_iter().zip(self.inputs()) {
            println!("{name}:\n{}", String::from_utf8_lossy(part));
        }
    }

    /// The check of one sheet alone.
    pub fn single(&self, sheet: &[u8]) -> Case {
        Case::new(self.kind, self.semantics, &self.label, self.schema.clone(), sheet.to_vec()).under(self.table.clone())
    }
}

/// Fewer sheets, larger parts left out first; what is not a book is made shorter.
pub fn candidates(case: &BookCase) -> Vec<BookCase> {
    let with = |book: Vec<u8>| BookCase { book, ..case.clone() };
    let Some(sheets) = sheets(&case.book) else {
        return shorter(&case.book).into_iter().map(with).collect();
    };
    let mut found = Vec::new();
    let mut part = sheets.len();
    while part > 0 {
        for start in (0..sheets.len()).step_by(part) {
            let end = sheets.len().min(start + part);
            found.push(with(write_book(&[&sheets[..start], &sheets[end..]].concat())));
        }
        part /= 2;
    }
    found
}
