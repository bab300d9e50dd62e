//! Rule books to print for the wall.

pub mod edges;
pub mod generate;

use crate::books::{BookCase, Expect};
use model::{WallCall, PAGE_BYTES, PAGE_SHEETS, TALLY_BYTES, WALL_BYTES};

/// What a caller of `rulecheck_wall` hands over: a book, whose result is that of a wall sheet, and a buffer for the pages.
#[derive(Clone, Debug, PartialEq, Eq)]
pub struct WallCase {
    pub book: BookCase,
    pub pages_len: usize,
}

/// What is answered: number and count of pages, and the pages themselves.
pub type Printed = ([u64; 2], Vec<u8>);

impl WallCase {
    /// The wall sheet of a book, with a buffer that has so many bytes more or fewer than the pages of its sheets; what is known of the tally is known of it too.
    pub fn new(book: &BookCase, sheets: usize, more: isize) -> Self {
        let result_len = if book.result_len < TALLY_BYTES { WALL_BYTES - 1 } else { WALL_BYTES };
        let pages_len = (sheets.div_ceil(PAGE_SHEETS) * PAGE_BYTES).saturating_add_signed(more);
        Self { book: BookCase { result_len, ..book.clone() }, pages_len }
    }

    pub fn call(&self) -> WallCall<'_> {
        WallCall { book: self.book.call(), pages_len: self.pages_len }
    }

    /// What follows for the numbers from the way the book was made.
    pub fn allows(&self, numbers: [u64; 2]) -> bool {
        match self.book.expect {
            Expect::Anything => true,
            Expect::Read(sheets) => numbers == [0, sheets.div_ceil(PAGE_SHEETS) as u64],
            Expect::Refused(number) => numbers == [u64::from(number), 0],
        }
    }
}
