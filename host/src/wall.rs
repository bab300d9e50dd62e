//! The wall sheet of a rule book: pages of 80 columns and 60 lines.

use crate::book::Book;
use crate::limits::{PAGE_BYTES, PAGE_SHEETS, WALL_BYTES};
use crate::raw;
use crate::refusal::Refusal;

/// A buffer for the pages of a book. What is not a book has none.
pub(crate) fn buffer(book: &[u8]) -> Vec<u8> {
    let sheets = Book::read(book).unwrap_or_default().len();
    vec![b' '; sheets.div_ceil(PAGE_SHEETS).saturating_mul(PAGE_BYTES)]
}

/// The pages, or the refusal that a result stands for.
pub(crate) fn answer(result: &[u8; WALL_BYTES], pages: Vec<u8>) -> Result<String, Refusal> {
    let [number, count] = [0, 1].map(|index| raw::count(result, index));
    let first = u32::try_from(number).unwrap_or(u32::MAX);
    let unknown = Refusal::Unknown([first, 0, 0, 0, 0, 0, 0]);
    let bytes = usize::try_from(count).map(|count| count.saturating_mul(PAGE_BYTES));
    match first {
        0 if bytes == Ok(pages.len()) => String::from_utf8(pages).map_err(|_| unknown),
        33 if count == 0 => Err(Refusal::Output),
        34 if count == 0 => Err(Refusal::BookForm),
        1..=3 | 37 | 38 if count == 0 => Err(Refusal::from_number(first).unwrap_or(unknown)),
        _ => Err(unknown),
    }
}

#[cfg(test)]
mod tests {
    use super::*;

    fn result(numbers: [u64; 2]) -> [u8; WALL_BYTES] {
        let mut result = [0; WALL_BYTES];
        for (bytes, number) in result.chunks_mut(8).zip(numbers) {
            bytes.copy_from_slice(&number.to_le_bytes());
        }
        result
    }

    #[test]
    fn answers_outside_the_format_are_unknown() {
        let page = vec![b' '; PAGE_BYTES];
        assert!(answer(&result([0, 1]), page.clone()).is_ok());
        for numbers in [[0, 0], [0, 2], [0, u64::MAX], [4, 0], [34, 1], [1 << 32, 1]] {
            let found = answer(&result(numbers), page.clone());
            assert!(matches!(found, Err(Refusal::Unknown(_))), "{numbers:?}");
        }
        let unprintable = vec![0xFF; PAGE_BYTES];
        assert!(matches!(
            answer(&result([0, 1]), unprintable),
            Err(Refusal::Unknown(_))
        ));
    }
}
