//! The fixed list of rule books (host/vectors/books.txt) replayed through the crate; every tally is what single checks add up to; and the edges of
//! docs/FORMAT.md, "Rule books".

mod support;

use entity_rules::limits::{PATH_BYTES, TABLE_BYTES, TALLY_BYTES};
use entity_rules::{
    Book, Check, Condition, DefectNumber, Kind, Name, Refusal, Rule, Schema, Semantics, Table,
    Tally, raw, tally,
};
use std::collections::BTreeSet;
use support::{Random, line, list, numbers, take};

const SCHEMA: &[u8] = b"H,0,2,0,1\nF,6,0,1,0,4,-,bars\nF,7,0,0,1,0,-,\nF,4,0,0,0,8,-,threaded\nF,1,0,0,0,4,-,name\nF,1,0,0,0,2,-,by\n";

/// Sheets with an answer of many kinds under that schema.
const SHEETS: [&str; 14] = [
    "R,-,-,\nC,1,1,\n",
    "R,4,-,able\nC,5,0,\nV,5,12,$fields.name\n",
    "R,1,-, \nC,1,1,\n",
    "R,-,2,\t \nC,1,0,\n",
    "R,-,-,\nC,8,0,\nV,4,5,1e309\nV,4,1,1\n",
    "R,-,-,\nC,3,0,\n",
    "R,-,-,\nC,18,1,\nV,6,0,\nV,1,0,\n",
    "R,-,-,\nC,5,0,\nV,5,12,$fields.nmae\n",
    "R,-,-,\nC,16,0,\nV,4,1,1\nV,5,1,a\n",
    "R,-,-,\nC,6,0,\nV,5,10,2024-02-30\nV,5,12,$fields.name\n",
    "R,-,-,\nC,20,3,a.b\nV,5,12,$fields.bars\nC,1,1,\n",
    "R,-,-,\nC,20,1,b\nV,5,12,$fields.name\nC,1,1,\n",
    "T\nV,7,1,\nK,1,a\nV,5,8,$args.by\n",
    "R,-,-,\nC,1,2,\n",
];

/// What single checks of the sheets add up to.
fn added_up(check: &Check, schema: &[u8], sheets: &[&[u8]]) -> Tally {
    let mut sum = Tally::default();
    for sheet in sheets {
        sum.read += 1;
        match check.run(schema, *sheet).map(|checked| checked.verdict) {
            Err(Refusal::SchemaSheet) => sum.schema_refused += 1,
            Err(Refusal::RuleSheet) => sum.rule_refused += 1,
            Err(refusal) => panic!("{refusal} is not an answer to a sheet of a book"),
            Ok(verdict) => {
                sum.passed += u64::from(verdict.passed());
                match verdict.defect() {
                    None => sum.accepted += 1,
                    Some(defect) => sum.found[defect.number.number() as usize - 11] += 1,
                }
            }
        }
    }
    sum
}

/// One book of the list: what is handed over, and the eighteen numbers of the answer.
struct Case<'a> {
    kind: u64,
    semantics: u64,
    label: &'a [u8],
    table: &'a [u8],
    schema: &'a [u8],
    book: &'a [u8],
    numbers: [u64; 18],
}

impl Case<'_> {
    /// The check that its sheets are given, where the settings are known ones.
    fn check(&self) -> Option<Check<'_>> {
        let kind = Kind::from_number(self.kind.try_into().ok()?)?;
        let semantics = Semantics::from_number(self.semantics.try_into().ok()?)?;
        Some(Check::new(kind, semantics, self.label).table(self.table))
    }
}

/// Calls the function on every book of the list.
fn for_each_case(mut look: impl FnMut(&Case)) {
    let list = list("books.txt");
    let mut rest = list.as_slice();
    let mut count = 0;
    while !rest.is_empty() {
        let all = numbers(line(&mut rest));
        let (head, answer) = all.split_at(6);
        let [kind, semantics, label, table, schema, book] = head[..] else {
            panic!("a case has 24 numbers");
        };
        let label = take(&mut rest, label);
        assert_eq!(take(&mut rest, 1), b"\n");
        let [table, schema, book] = [table, schema, book].map(|count| take(&mut rest, count));
        assert_eq!(take(&mut rest, 1), b"\n");
        look(&Case {
            kind,
            semantics,
            label,
            table,
            schema,
            book,
            numbers: answer.try_into().expect("eighteen numbers"),
        });
        count += 1;
    }
    assert_eq!(count, 619);
}

#[test]
fn the_c_function_answers_every_case_and_keeps_the_other_bytes() {
    for_each_case(|case| {
        let (mut path, mut result) = (vec![0xAA; PATH_BYTES + 3], [0xBB; TALLY_BYTES + 5]);
        let number = raw::tally(
            case.kind,
            case.semantics,
            case.label,
            case.table,
            case.schema,
            case.book,
            &mut path,
            &mut result,
        );
        assert_eq!(u64::from(number), case.numbers[0]);
        let found: Vec<u64> = (0..18).map(|index| raw::count(&result, index)).collect();
        assert_eq!(found, case.numbers);
        let free = if number == 0 { PATH_BYTES } else { 0 };
        assert!(path[free..].iter().all(|&byte| byte == 0xAA));
        assert_eq!(result[TALLY_BYTES..], [0xBB; 5]);
    });
}

#[test]
fn the_typed_function_answers_every_case() {
    let mut seen = BTreeSet::new();
    for_each_case(|case| {
        let [number, read, accepted, by_4, by_5, found @ .., passed] = case.numbers;
        seen.insert(number);
        let Some(check) = case.check() else {
            assert_eq!(number, 1);
            return;
        };
        match check.tally(case.schema, case.book) {
            Err(refusal) => assert_eq!(u64::from(refusal.number()), number),
            Ok(tally) => {
                assert_eq!((tally.read, tally.accepted), (read, accepted));
                assert_eq!((tally.schema_refused, tally.rule_refused), (by_4, by_5));
                assert_eq!((tally.found, tally.passed, number), (found, passed, 0));
                let sheets = Book::read(case.book).expect("a book");
                let sheets: Vec<&[u8]> = sheets.iter().map(|sheet| sheet.bytes).collect();
                assert_eq!(added_up(&check, case.schema, &sheets), tally);
            }
        }
        if number == 34 {
            assert!(Book::read(case.book).is_err());
        }
    });
    assert!(seen.into_iter().eq([0, 1, 2, 34, 37, 38]));
}

#[test]
fn a_tally_is_what_single_checks_add_up_to() {
    let mut random = Random(0x5EED_0005);
    let own = Table::stock().hide(Kind::Precondition, Name::Fields);
    let own = own.hide(Kind::Precondition, Name::OldFields).sheet();
    let tables = [Vec::new(), own.expect("a table")];
    for _ in 0..2_000 {
        let count = random.pick(&[0, 1, 2, 5, 40]);
        let sheets: Vec<Vec<u8>> = (0..count)
            .map(|_| {
                let mut sheet = random.pick(&SHEETS).as_bytes().to_vec();
                if random.chance(9) {
                    let at = random.below(sheet.len());
                    sheet[at] = random.below(256) as u8;
                }
                sheet
            })
            .collect();
        let schema = if random.chance(9) { b"H,0,0" } else { SCHEMA };
        let (kind, semantics) = (random.pick(Kind::ALL), random.pick(Semantics::ALL));
        let table = &tables[random.below(2)];
        let check = Check::new(kind, semantics, "mill").table(table);
        let book: Book = sheets.iter().collect();
        let sheets: Vec<&[u8]> = sheets.iter().map(Vec::as_slice).collect();
        assert_eq!(
            check.tally(schema, &book),
            Ok(added_up(&check, schema, &sheets))
        );
    }
}

#[test]
fn every_number_is_counted_under_its_name() {
    let book: Book = SHEETS.iter().collect();
    let settings = (Kind::Precondition, Semantics::Service1);
    let service = tally(settings.0, settings.1, "mill", SCHEMA, &book).expect("a tally");
    let mut sum = (service.read, service.accepted, service.rule_refused);
    assert_eq!(sum, (14, 3, 1));
    let absent = [DefectNumber::Deep, DefectNumber::Operator];
    for &number in DefectNumber::ALL {
        let expected = u64::from(!absent.contains(&number));
        assert_eq!(service.count(number), expected, "{number}");
    }
    assert_eq!(service.defects(), 10);

    let kernel = tally(settings.0, Semantics::Kernel1, "mill", SCHEMA, &book).expect("a tally");
    assert_eq!(kernel.count(DefectNumber::Operator), 3);
    sum = (kernel.read, kernel.accepted, kernel.rule_refused);
    assert_eq!(sum, (14, 4, 1));
}

#[test]
fn a_bad_schema_counts_every_sheet_under_4() {
    let book: Book = SHEETS.iter().collect();
    let tally = tally(Kind::Invariant, Semantics::Kernel1, "", b"H", &book).expect("a tally");
    assert_eq!((tally.read, tally.schema_refused), (14, 14));
    assert_eq!((tally.rule_refused, tally.passed), (0, 0));
}

#[test]
fn a_book_without_sheets_is_a_book() {
    for schema in [SCHEMA, b"H"] {
        let tally = tally(Kind::Invariant, Semantics::Kernel1, "", schema, b"");
        assert_eq!(tally, Ok(Tally::default()));
    }
    let one = tally(Kind::Invariant, Semantics::Kernel1, "", SCHEMA, b"0,").expect("a tally");
    assert_eq!((one.read, one.rule_refused), (1, 1));
}

/// A file that `Book::read` reads is one that the library tallies, with as many sheets, and no other is.
#[test]
fn the_reading_for_people_agrees_with_the_library() {
    let mut random = Random(0x5EED_0034);
    let mut seen = [0; 2];
    for _ in 0..20_000 {
        let count = random.below(4);
        let book: Book = (0..count).map(|_| random.pick(&SHEETS)).collect();
        let mut file = book.bytes().to_vec();
        for _ in 0..random.below(3) {
            let at = random.below(file.len() + 1);
            let byte = random.pick(b"0123456789,,,R \n");
            match random.below(4) {
                0 => file.insert(at, byte),
                1 => file.truncate(at),
                _ if at == file.len() => file.push(byte),
                2 => file[at] = byte,
                _ => drop(file.remove(at)),
            }
        }
        let tally = tally(Kind::Invariant, Semantics::Service1, "", SCHEMA, &file);
        match Book::read(&file) {
            Ok(sheets) => {
                assert_eq!(tally.map(|tally| tally.read), Ok(sheets.len() as u64));
                let again: Book = sheets.iter().map(|sheet| sheet.bytes).collect();
                assert_eq!(again.bytes(), file);
                seen[0] += 1;
            }
            Err(error) => {
                assert_eq!(tally, Err(error.refusal()), "{file:?}");
                assert!(error.byte <= file.len());
                seen[1] += 1;
            }
        }
    }
    assert!(seen.iter().all(|&count| count > 4_000), "{seen:?}");
}

#[test]
fn lengths_past_64_bits_are_those_of_no_book() {
    for numeral in [
        "18446744073709551615",
        "18446744073709551616",
        "18446744073709551618",
        "4294967298",
        "36893488147419103234",
        "99999999999999999999999999999999999999999",
        &"9".repeat(40_000),
    ] {
        let file = format!("2,T\n{numeral},T\n");
        let refused = tally(Kind::Invariant, Semantics::Kernel1, "", SCHEMA, &file);
        assert_eq!(refused, Err(Refusal::BookForm), "{numeral}");
        let error = Book::read(file.as_bytes()).expect_err("no book");
        assert_eq!((error.sheet, error.byte), (2, 4));
    }
}

#[test]
fn large_books_are_counted_to_the_end() {
    let accepted = SHEETS[0];
    let mut book: Book = (0..100_000)
        .map(|at| if at % 10 == 9 { "" } else { accepted })
        .collect();
    let check = Check::new(Kind::Invariant, Semantics::Kernel1, "mill");
    let tally = check.tally(SCHEMA, &book).expect("a tally");
    assert_eq!((tally.read, tally.accepted), (100_000, 90_000));
    assert_eq!((tally.rule_refused, tally.passed), (10_000, 360_000));

    // A sheet may be longer than a sheet can be, and what follows it still counts.
    book.extend(["R".repeat(1 << 20).as_str(), accepted]);
    let tally = check.tally(SCHEMA, &book).expect("a tally");
    assert_eq!((tally.read, tally.accepted), (100_002, 90_001));
    assert_eq!(tally.rule_refused, 10_001);
}

#[test]
fn tallies_of_two_books_add_up() {
    let check = Check::new(Kind::Precondition, Semantics::Service1, "mill");
    for at in 0..=SHEETS.len() {
        let (first, second) = SHEETS.split_at(at);
        let [first, second]: [Book; 2] = [first, second].map(|sheets| sheets.iter().collect());
        let whole = [first.bytes(), second.bytes()].concat();
        let both = [first, second]
            .into_iter()
            .map(|book| check.tally(SCHEMA, book));
        let sum: Result<Tally, Refusal> = both.sum();
        assert_eq!(check.tally(SCHEMA, whole), sum);
    }
}

/// What a call is given, each part of it good or not.
struct Call {
    kind: u64,
    label: Vec<u8>,
    path: usize,
    result: usize,
    book: Vec<u8>,
    table: Vec<u8>,
}

/// Every combination of refusals, by the bits of a number.
fn call(bits: u32) -> (Call, u32) {
    let is = |bit: u32| bits >> bit & 1 == 1;
    let stock = Table::stock().sheet().expect("a table");
    let mut table = stock.clone();
    if is(5) {
        table[4] = b'0';
    }
    if is(4) {
        table[0] = b'M';
    }
    let book: Book = SHEETS.iter().collect();
    let book = match is(3) {
        true => [book.bytes(), b"0"].concat(),
        false => book.bytes().to_vec(),
    };
    let (path, result) = match (is(2), bits % 2) {
        (false, _) => (PATH_BYTES + 7, TALLY_BYTES + 9),
        (true, 0) => (PATH_BYTES + 7, TALLY_BYTES - 1),
        (true, _) => (PATH_BYTES - 1, TALLY_BYTES + 9),
    };
    let call = Call {
        kind: if is(0) { 9 } else { 2 },
        label: if is(1) { vec![0xFF] } else { b"mill".to_vec() },
        path,
        result,
        book,
        table,
    };
    let order = [(0, 1), (1, 2), (2, 3), (3, 34), (4, 37), (5, 38)];
    let first = order.iter().find(|(bit, _)| is(*bit));
    (call, first.map_or(0, |(_, number)| *number))
}

#[test]
fn refusals_come_in_their_order_and_keep_both_buffers() {
    for bits in 0..64 {
        let (given, number) = call(bits);
        let (mut path, mut result) = (vec![0xAA; given.path], vec![0xBB; given.result]);
        let answer = raw::tally(
            given.kind,
            2,
            &given.label,
            &given.table,
            SCHEMA,
            &given.book,
            &mut path,
            &mut result,
        );
        assert_eq!(answer, number, "{bits:06b}");
        let free = if number == 0 { PATH_BYTES } else { 0 };
        assert!(path[free..].iter().all(|&byte| byte == 0xAA));
        if given.result < TALLY_BYTES {
            assert!(result.iter().all(|&byte| byte == 0xBB));
            continue;
        }
        let (numbers, rest) = result.split_at(TALLY_BYTES);
        assert_eq!(rest, [0xBB; 9]);
        assert_eq!(raw::count(numbers, 0), u64::from(number));
        let counts = (1..18).map(|index| raw::count(numbers, index));
        assert_eq!(counts.sum::<u64>() == 0, number != 0);
    }
}

#[test]
fn counts_past_the_end_are_0() {
    let result: Vec<u8> = (0..40).collect();
    for length in 0..40 {
        for index in (0..6).chain([1 << 28, 1 << 29, (1 << 29) + 1, 1 << 31, u32::MAX]) {
            let at = index as usize * 8;
            let bytes = result[..length].get(at..at + 8);
            let expected = bytes.map_or(0, |bytes| {
                u64::from_le_bytes(bytes.try_into().expect("eight bytes"))
            });
            assert_eq!(raw::count(&result[..length], index), expected);
        }
    }
}

#[test]
fn the_table_and_the_label_are_refused_as_for_a_check() {
    let book = Book::new().sheet(SHEETS[0]);
    let check = Check::new(Kind::Invariant, Semantics::Kernel1, "mill");
    let refused = |table: &[u8]| check.table(table).tally(SCHEMA, &book);
    assert_eq!(refused(b"N"), Err(Refusal::TableForm));
    let mut table = Table::stock().sheet().expect("a table");
    assert_eq!(table.len(), TABLE_BYTES);
    table[4] = b'0';
    assert_eq!(refused(&table), Err(Refusal::TableMark));
    let long = "l".repeat(257);
    let refused = tally(Kind::Invariant, Semantics::Kernel1, long, SCHEMA, &book);
    assert_eq!(refused, Err(Refusal::Label));
}

#[test]
fn one_schema_serves_rules_and_templates() {
    let schema = Schema::new().open().sheet().expect("a small schema");
    let rule = Rule::new(Condition::exists("$fields.a")).sheet();
    let book = Book::new().sheet(rule.expect("a rule")).sheet(SHEETS[12]);
    let tally = tally(
        Kind::OperationTemplate,
        Semantics::Service3,
        "",
        &schema,
        &book,
    );
    let tally = tally.expect("a tally");
    assert_eq!(
        (tally.accepted, tally.count(DefectNumber::Reference)),
        (1, 1)
    );
}
