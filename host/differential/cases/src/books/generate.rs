//! Random rule books: sheets for one schema and sheets of any sort, files that are nearly books, schemas that are not well formed, refusals.

use crate::books::{BookCase, Expect};
use crate::case::Case;
use crate::generate::names::{Names, STOCK};
use crate::generate::setting::Setting;
use crate::generate::tables::{damage as damage_table, names, unsound};
use crate::generate::{limits, profiles, schemas};
use crate::limits::MIN_PATH_BYTES;
use crate::random::Random;
use model::{write_book, write_rule, write_schema, TALLY_BYTES};

/// A name, how often in a thousand books it comes, and what makes it.
type Profile = (&'static str, usize, fn(&mut Random) -> BookCase);

pub const PROFILES: [Profile; 5] = [
    ("sheets", 640, of_sheets),
    ("damaged", 200, damaged),
    ("no schema", 50, without_schema),
    ("refusals", 90, refusals),
    ("many", 20, many),
];

/// A book of any profile, and the words for it.
pub fn case(random: &mut Random) -> (&'static str, BookCase) {
    let mut ticket = random.below(1_000);
    for (name, share, make) in PROFILES {
        if ticket < share {
            return (name, make(random));
        }
        ticket -= share;
    }
    unreachable!("the shares add up to a thousand")
}

/// The names of a table in a third of the books, else those of the stock table.
fn own_names(random: &mut Random) -> Names {
    if random.chance(33) {
        names(random)
    } else {
        STOCK.clone()
    }
}

/// Sheets for one schema and the settings that they share.
fn sheets(random: &mut Random, names: &Names, count: usize) -> (BookCase, Vec<Vec<u8>>) {
    let setting = Setting::new(random, names);
    let fields = random.between(1, 6);
    let schema = schemas::schema(random, fields);
    let sheets: Vec<Vec<u8>> = (0..count)
        .map(|_| match random.below(10) {
            0..=5 => {
                let slip = random.between(0, 25);
                write_rule(&setting.sheet(random, &schema, slip))
            }
            6..=8 => profiles::case(random, names).1.rule,
            _ => odd(random),
        })
        .collect();
    let case = Case::new(setting.kind, setting.semantics, setting.label.as_bytes(), write_schema(&schema), Vec::new());
    (BookCase::new(&case.under(names.lent.clone()), &sheets), sheets)
}

/// Small sheets, most of them none, some of which look like the book around them.
fn odd(random: &mut Random) -> Vec<u8> {
    let all: [&[u8]; 9] = [b"", b"R", b",", b"0,", b"1,R", b"9", b"T\nV,1,0,\n", b"R,-,-,\nC,1,1,\n", b"\n"];
    random.pick(&all).to_vec()
}

fn of_sheets(random: &mut Random) -> BookCase {
    let most = random.pick(&[1, 2, 10, 40, 120]);
    let (names, count) = (own_names(random), random.below(most + 1));
    sheets(random, &names, count).0
}

/// Hundreds of sheets, most of them small.
fn many(random: &mut Random) -> BookCase {
    let (names, count) = (own_names(random), random.between(200, 400));
    sheets(random, &names, count).0
}

fn without_schema(random: &mut Random) -> BookCase {
    let (names, count) = (own_names(random), random.below(20));
    let (mut case, _) = sheets(random, &names, count);
    case.schema = limits::broken(random, &case.schema);
    case
}

/// A book in which a length is another, or is in another form, or something else than a sheet is at an end.
fn damaged(random: &mut Random) -> BookCase {
    let (names, count) = (own_names(random), random.between(1, 12));
    let (case, sheets) = sheets(random, &names, count);
    let at = random.below(count);
    let (before, behind) = (write_book(&sheets[..at]), write_book(&sheets[at + 1..]));
    let sheet = &sheets[at];
    let (head, expect) = head(random, sheet.len());
    let mut book = [&before, head.as_bytes(), sheet, &behind].concat();
    let expect = match random.below(12) {
        0 => {
            book.truncate(random.below(book.len()));
            Expect::Anything
        }
        1 => {
            book.push(random.pick(b"\n R,\0"));
            if head == format!("{},", sheet.len()) {
                Expect::Refused(34)
            } else {
                Expect::Anything
            }
        }
        2 => {
            let place = random.below(book.len());
            book[place] = random.pick(b"0123456789,,R\n");
            Expect::Anything
        }
        _ => expect,
    };
    BookCase { book, expect, ..case }
}

/// The length of a sheet, most often not as it should be written; and what is known of the book then.
fn head(random: &mut Random, length: usize) -> (String, Expect) {
    let refused = Expect::Refused(34);
    let zeros = "0".repeat(random.between(1, 30));
    let past = random.pick(&[1_u128 << 64, 2 << 64, 3 << 64, (1 << 64) - 1, 1 << 127]);
    match random.below(16) {
        0 => (format!("0{length},"), refused),
        1 => (format!("{zeros}{length},"), refused),
        2 => (format!("{},", length as u128 + past), refused),
        3 => (format!("{},", length as u128 + (1 << 32)), refused),
        4 => (format!("{length}{},", "0".repeat(random.between(20, 60))), if length == 0 { Expect::Anything } else { refused }),
        5 => (format!("+{length},"), refused),
        6 => (format!("-{length},"), refused),
        7 => (format!(" {length},"), refused),
        8 => (format!("{length} ,"), refused),
        9 => (format!("{length};"), refused),
        10 => (",".to_owned(), refused),
        11 => (format!("{length}"), Expect::Anything),
        12 => (String::new(), Expect::Anything),
        13 => (format!("{},", length + 1), Expect::Anything),
        14 => (format!("{},", length.saturating_sub(1)), Expect::Anything),
        _ => (format!("{length},"), Expect::Anything),
    }
}

/// A book with some of the refusals called for: the first of them answers.
fn refusals(random: &mut Random) -> BookCase {
    let (names, count) = (names(random), random.below(5));
    let (mut case, sheets) = sheets(random, &names, count);
    let mut first = 0;
    for refusal in [38, 37, 34, 3, 2, 1] {
        if random.chance(25) {
            refuse(random, &mut case, refusal);
            first = refusal;
        }
    }
    let expect = if first == 0 { Expect::Read(sheets.len()) } else { Expect::Refused(first) };
    BookCase { expect, ..case }
}

/// Changes the book, which is lent a table, so that the refusal applies. A table is made unsound before it is damaged.
pub fn refuse(random: &mut Random, case: &mut BookCase, refusal: u32) {
    match refusal {
        1 => case.kind = random.pick(&[0, 9, (1 << 32) + 1, u64::MAX]),
        2 if random.chance(50) => case.label = vec![b'l'; 257],
        2 => case.label = random.pick(&limits::NO_UTF8).to_vec(),
        3 if random.chance(50) => case.path_len = random.pick(&[0, MIN_PATH_BYTES - 1]),
        3 => case.result_len = random.pick(&[0, TALLY_BYTES - 1]),
        34 => case.book.push(b'1'),
        37 => damage_table(random, &mut case.table),
        _ => unsound(random, &mut case.table),
    }
}
