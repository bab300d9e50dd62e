//! Books whose answers are known: each sheet alone and all together, every form of a length, every combination of refusals, and a hundred thousand sheets.

use crate::books::generate::refuse;
use crate::books::{BookCase, Expect};
use crate::case::Case;
use crate::edges::edges as single_edges;
use crate::random::Random;
use model::table::Table;

const SCHEMA: &str = "H,0,2,0,1\nF,6,0,1,0,4,-,bars\nF,7,0,0,1,0,-,\nF,4,0,0,0,8,-,threaded\nF,1,0,0,0,4,-,name\nF,1,0,0,0,2,-,by\n";

/// Sheets that are answered with 0, 5 and each of 11 to 22, under one semantics or another.
pub const SHEETS: [&str; 15] = [
    "R,-,-,\nC,1,1,\n",
    "R,4,-,able\nC,5,0,\nV,5,12,$fields.name\n",
    "R,1,-, \nC,1,1,\n",
    "R,-,2,\t \nC,1,0,\n",
    "R,-,-,\nC,8,0,\nV,4,5,1e309\nV,4,1,1\n",
    "R,-,-,\nC,19,0,\nV,1,0,\n",
    "R,-,-,\nC,3,0,\n",
    "R,-,-,\nC,18,1,\nV,6,0,\nV,1,0,\n",
    "R,-,-,\nC,5,0,\nV,5,12,$fields.nmae\n",
    "R,-,-,\nC,16,0,\nV,4,1,1\nV,5,1,a\n",
    "R,-,-,\nC,6,0,\nV,5,10,2024-02-30\nV,5,12,$fields.name\n",
    "R,-,-,\nC,20,3,a.b\nV,5,12,$fields.bars\nC,1,1,\n",
    "R,-,-,\nC,20,1,b\nV,5,12,$fields.name\nC,1,1,\n",
    "T\nV,7,1,\nK,1,a\nV,5,8,$args.by\n",
    "R,-,-,\nC,1,2,\n",
];

/// Files that are not a book, alone and after a sheet.
const NO_BOOKS: [&str; 24] = [
    ",",
    "R",
    "\n",
    "1",
    "1,",
    "2,R",
    "1,RR",
    "1,R\n",
    "1,R,",
    "1;R",
    "1 ,R",
    " 1,R",
    "+1,R",
    "-1,R",
    "01,R",
    "00,",
    "0x1,R",
    "1.,R",
    "1e0,R",
    "4294967297,R",
    "18446744073709551615,R",
    "18446744073709551617,R",
    "340282366920938463463374607431768211457,R",
    "\u{661},R",
];

/// A call under the schema that the sheets are for.
pub fn known(semantics: u64) -> Case {
    base(semantics, SCHEMA)
}

fn base(semantics: u64, schema: &str) -> Case {
    Case::new(2, semantics, b"mill", schema.as_bytes().to_vec(), Vec::new())
}

pub fn bytes(sheets: &[&str]) -> Vec<Vec<u8>> {
    sheets.iter().map(|sheet| sheet.as_bytes().to_vec()).collect()
}

/// All of the known books.
pub fn edges() -> Vec<BookCase> {
    let mut found = Vec::new();
    for semantics in 1..=4 {
        for schema in [SCHEMA, "H", "H,1,0,-,0\n"] {
            let of = |sheets: &[&str]| BookCase::new(&base(semantics, schema), &bytes(sheets));
            found.push(of(&[]));
            found.push(of(&[""]));
            found.push(of(&["", "", ""]));
            found.push(of(&SHEETS));
            found.push(of(&[SHEETS, SHEETS].concat()));
            found.extend(SHEETS.iter().map(|sheet| of(&[sheet])));
            found.extend((1..SHEETS.len()).map(|end| of(&SHEETS[..end])));
        }
    }
    found.extend(forms());
    found.extend(deep());
    found.extend(combinations());
    found.extend(edges_of_checks());
    found
}

/// Each form of a length that is none, first in a file, second, and before another sheet.
fn forms() -> Vec<BookCase> {
    let good = BookCase::new(&base(2, SCHEMA), &bytes(&SHEETS[..1]));
    let long = format!("{},R", "1".repeat(5_000));
    let all = NO_BOOKS.iter().copied().chain([long.as_str()]);
    let places = |file: &str| [file.as_bytes().to_vec(), [&good.book, file.as_bytes()].concat(), [file.as_bytes(), &good.book].concat()];
    let refused = |book| BookCase { book, expect: Expect::Anything, ..good.clone() };
    let mut found: Vec<BookCase> = all.flat_map(places).map(refused).collect();
    for case in found.iter_mut().step_by(3) {
        case.expect = Expect::Refused(34);
    }
    found
}

/// Conditions 33 deep, which no other sheet here has, and a sheet far longer than a sheet may be, with others after it.
fn deep() -> Vec<BookCase> {
    let deep = format!("R,-,-,\n{}C,1,1,\n", "C,4,0,\n".repeat(32));
    let long = "R".repeat(70_000);
    let at_most = |entries: usize| format!("T\nV,6,{},\n{}", entries - 2, "V,1,0,\n".repeat(entries - 2));
    let (full, over) = (at_most(2_048), at_most(2_049));
    let sheets = [&deep, &long, &full, &over, SHEETS[0]];
    vec![BookCase::new(&base(2, SCHEMA), &bytes(&sheets))]
}

/// Every combination of the refusals 1, 2, 3, 34, 37 and 38, with a schema and without.
fn combinations() -> Vec<BookCase> {
    let order = [38, 37, 34, 3, 2, 1];
    let case = |number: u64| {
        let mut random = Random::new(number);
        let schema = if number % 2 == 0 { SCHEMA } else { "" };
        let lent = base(2, schema).under(Table::stock().write());
        let mut case = BookCase::new(&lent, &bytes(&SHEETS[..3]));
        for (at, refusal) in order.into_iter().enumerate() {
            if number >> (at + 1) & 1 == 1 {
                refuse(&mut random, &mut case, refusal);
                case.expect = Expect::Refused(refusal);
            }
        }
        case
    };
    (0..256).map(|number| case(number % 128)).collect()
}

/// The known edges of single checks, those of one setting and schema together in a book.
fn edges_of_checks() -> Vec<BookCase> {
    let mut books: Vec<(Case, Vec<Vec<u8>>)> = Vec::new();
    for case in single_edges() {
        let is_same = |other: &Case| {
            (case.kind, case.semantics, &case.label, &case.schema) == (other.kind, other.semantics, &other.label, &other.schema)
        };
        let is_wide = case.path_len >= crate::limits::MIN_PATH_BYTES && case.scratch_len >= crate::limits::MIN_SCRATCH_WORDS;
        match books.iter_mut().find(|(other, _)| is_same(other)) {
            _ if !is_wide => {}
            Some((_, sheets)) => sheets.push(case.rule),
            None => books.push((case.clone(), vec![case.rule])),
        }
    }
    let anything = |(case, sheets): &(Case, Vec<Vec<u8>>)| BookCase { expect: Expect::Anything, ..BookCase::new(case, sheets) };
    books.iter().map(anything).collect()
}

/// Books of that many sheets, all of them small, in which every count is a large one.
pub fn large(sheets: usize) -> Vec<BookCase> {
    let of = |all: &[&str]| {
        let sheets: Vec<Vec<u8>> = all.iter().cycle().take(sheets).map(|sheet| sheet.as_bytes().to_vec()).collect();
        [SCHEMA, "H"].map(|schema| BookCase::new(&base(2, schema), &sheets))
    };
    [of(&SHEETS), of(&[""]), of(&SHEETS[..1])].concat()
}
