//! Wall sheets whose form is known: books at the ends of pages, paths at the end of the line, every byte of ASCII in a path, every combination of refusals.

use crate::books::edges::{bytes, known, SHEETS};
use crate::books::generate::refuse;
use crate::books::{BookCase, Expect};
use crate::case::Case;
use crate::random::Random;
use crate::walls::WallCase;
use model::table::Table;

/// A template whose path is the label alone.
const UNREAD: &str = "T\nV,5,8,$nothing\n";

/// All of the known wall sheets but the largest.
pub fn edges() -> Vec<WallCase> {
    let mut found = Vec::new();
    for count in [0, 1, 2, 57, 58, 59, 115, 116, 117, 174] {
        for more in [0, 1, 81, -1, -4_860] {
            found.push(of_sheets(count, more));
        }
    }
    found.extend(labels().iter().map(|label| of_label(label)));
    found.extend(combinations());
    found
}

/// A book of so many sheets, with answers of all kinds.
pub fn of_sheets(count: usize, more: isize) -> WallCase {
    let sheets: Vec<&str> = SHEETS.iter().copied().cycle().take(count).collect();
    let mut case = WallCase::new(&BookCase::new(&known(2), &bytes(&sheets)), count, more);
    if more < 0 && count > 0 {
        case.book.expect = Expect::Refused(33);
    }
    case
}

fn of_label(label: &str) -> WallCase {
    let case = Case { label: label.as_bytes().to_vec(), ..known(2) };
    let sheets = bytes(&[UNREAD, SHEETS[8], SHEETS[10], "T\nV,7,1,\nK,5,\u{1f}é>~\nV,5,2,$x\n"]);
    WallCase::new(&BookCase::new(&case, &sheets), sheets.len(), 0)
}

/// Labels of every length about the room that a line has, with a wide character at the cut, and each character of ASCII.
fn labels() -> Vec<String> {
    let lengths = (0..=60).chain([255, 256]);
    let plain = lengths.clone().map(|length| "p".repeat(length));
    let wide = |character: &'static str| (50..=56).map(move |before| format!("{}{character}", "p".repeat(before)));
    let cut = |character: &'static str| (50..=56).map(move |before| format!("{}{character}pppp", "p".repeat(before)));
    let ascii = (0..128_u8).map(|byte| char::from(byte).to_string());
    let mut found: Vec<String> = plain.chain(ascii).collect();
    for character in ["é", "日", "\u{1F600}", ">", "?", "\n"] {
        found.extend(wide(character).chain(cut(character)));
    }
    found
}

/// Every combination of the refusals 1, 2, 3, 34, 33, 37 and 38, with a schema and without.
fn combinations() -> Vec<WallCase> {
    let order = [38, 37, 33, 34, 3, 2, 1];
    let case = |number: u64| {
        let mut random = Random::new(number);
        let schema = if number % 2 == 0 { known(2).schema } else { Vec::new() };
        let lent = Case { schema, ..known(2) }.under(Table::stock().write());
        let mut case = WallCase::new(&BookCase::new(&lent, &bytes(&SHEETS[..3])), 3, 0);
        for (at, refusal) in order.into_iter().enumerate() {
            if number >> (at + 1) & 1 == 1 {
                match refusal {
                    33 => case.pages_len -= 1,
                    3 if random.chance(50) => case.book.result_len -= 1,
                    3 => case.book.path_len -= 1,
                    _ => refuse(&mut random, &mut case.book, refusal),
                }
                case.book.expect = Expect::Refused(refusal);
            }
        }
        case
    };
    (0..512).map(|number| case(number % 256)).collect()
}

/// A book whose serials pass five digits.
pub fn large() -> WallCase {
    of_sheets(100_002, 0)
}
