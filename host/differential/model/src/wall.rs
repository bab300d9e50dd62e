//! The wall sheet: what checks of a rule book answer, printed on pages of 80 columns and 60 lines.

use super::book::{answers, BookCall};
use super::call::Answer;

/// Result lines of a page, between its heading and its foot.
pub const PAGE_SHEETS: usize = 58;

/// Sixty lines of 80 columns, each with its end.
pub const PAGE_BYTES: usize = 60 * 81;

/// Number and pages, eight bytes each.
pub const WALL_BYTES: usize = 16;

/// Columns that are left for a path.
const PATH_COLUMNS: usize = 55;

/// What a caller hands over, with the length of the buffer that takes the pages; the result is that of the wall.
#[derive(Clone, Copy, Debug)]
pub struct WallCall<'a> {
    pub book: BookCall<'a>,
    pub pages_len: usize,
}

/// Number and count of pages, and what is written to the start of the buffer.
///
/// The refusals are 1, 2, 3, 34, 33, 37 and 38 in this order. Nothing is written under one.
pub fn wall(call: &WallCall) -> ([u64; 2], Vec<u8>) {
    let fits = |sheets: usize| match sheets.div_ceil(PAGE_SHEETS) * PAGE_BYTES <= call.pages_len {
        true => Ok(()),
        false => Err(33),
    };
    match answers(&call.book, WALL_BYTES, fits) {
        Err(refused) => ([refused.into(), 0], Vec::new()),
        Ok(answers) => {
            let pages: Vec<String> = answers
                .chunks(PAGE_SHEETS)
                .enumerate()
                .map(|(before, answers)| page(before, answers))
                .collect();
            ([0, pages.len() as u64], pages.concat().into_bytes())
        }
    }
}

/// A page after so many others: its heading, a line for each answer, blank lines for those that are missing, and its foot.
fn page(before: usize, answers: &[Answer]) -> String {
    let heading = format!("PAGE {}", column(5, before as u64 + 1));
    let serials = (before * PAGE_SHEETS + 1) as u64..;
    let results = serials
        .zip(answers)
        .map(|(serial, answer)| result(serial, answer));
    let spare = std::iter::repeat_n(String::new(), PAGE_SHEETS - answers.len());
    let accepted = answers.iter().filter(|answer| answer.number == 0).count();
    let foot = format!("ACCEPTED {}", column(2, accepted as u64));
    let lines = std::iter::once(heading)
        .chain(results)
        .chain(spare)
        .chain([foot]);
    lines.map(|line| format!("{line:<80}\n")).collect()
}

/// Serial number, number, family, place, passed, and the path.
fn result(serial: u64, answer: &Answer) -> String {
    let Answer {
        number,
        family,
        place,
        passed,
        ..
    } = answer;
    let numbers = [
        column(5, serial),
        column(3, (*number).into()),
        column(2, (*family).into()),
        column(5, (*place).into()),
        column(5, (*passed).into()),
    ];
    format!("{} {}", numbers.join(" "), shown(&answer.path))
}

/// A number right in its width, or as many of its last digits as that has room for.
fn column(width: usize, number: u64) -> String {
    let digits = number.to_string();
    let start = digits.len().saturating_sub(width);
    format!("{:>width$}", &digits[start..])
}

/// A path in the columns that are left; a longer one is cut before the last, which has `>`. Bytes that are not printable ASCII show as `?`.
fn shown(path: &[u8]) -> String {
    let is_cut = path.len() > PATH_COLUMNS;
    let room = if is_cut {
        PATH_COLUMNS - 1
    } else {
        PATH_COLUMNS
    };
    let mut shown: String = path
        .iter()
        .take(room)
        .map(|byte| match byte {
            0x20..=0x7E => char::from(*byte),
            _ => '?',
        })
        .collect();
    if is_cut {
        shown.push('>');
    }
    shown
}
