//! The fixed lists of checks under name tables and of loads (host/vectors/tables.txt, loads.txt) replayed through the crate, and the edges of
//! docs/FORMAT.md, "The name table".

mod support;

use entity_rules::limits::{CHECK_RESULT_BYTES, MARKS_BYTES, PATH_BYTES, TABLE_BYTES};
use entity_rules::{
    Check, Condition, Detail, Kind, Name, ReferenceFault, Refusal, Rule, Schema, Semantics, Table,
    TableError, Template, Verdict, check, check_rule, check_template, raw,
};
use std::collections::BTreeSet;
use support::{Random, line, list, numbers, take};

/// One check: what is handed over, and the answer.
struct Case<'a> {
    kind: u64,
    semantics: u64,
    label: &'a [u8],
    table: &'a [u8],
    schema: &'a [u8],
    rule: &'a [u8],
    numbers: [u32; 7],
    path: &'a [u8],
}

impl Case<'_> {
    fn settings(&self) -> Option<(Kind, Semantics)> {
        let kind = Kind::from_number(self.kind.try_into().ok()?)?;
        let semantics = Semantics::from_number(self.semantics.try_into().ok()?)?;
        Some((kind, semantics))
    }

    /// The number, and what the path buffer holds, both of that length.
    fn run(&self, path: &mut [u8], result: &mut [u8]) -> u32 {
        raw::check(
            self.kind,
            self.semantics,
            self.label,
            self.table,
            self.schema,
            self.rule,
            path,
            &mut [0; MARKS_BYTES],
            result,
        )
    }
}

/// Calls the function on every check of the list.
fn for_each_case(mut look: impl FnMut(&Case)) {
    let list = list("tables.txt");
    let mut rest = list.as_slice();
    let mut count = 0;
    while !rest.is_empty() {
        let numbers = numbers(line(&mut rest));
        let (head, answer) = numbers.split_at(6);
        let [kind, semantics, label, table, schema, rule] = head[..] else {
            panic!("a case has thirteen numbers");
        };
        let answer: Vec<u32> = answer.iter().map(|&number| number as u32).collect();
        let label = take(&mut rest, label);
        assert_eq!(take(&mut rest, 1), b"\n");
        let [table, schema, rule] = [table, schema, rule].map(|count| take(&mut rest, count));
        let path = take(&mut rest, answer[6].into());
        assert_eq!(take(&mut rest, 1), b"\n");
        look(&Case {
            kind,
            semantics,
            label,
            table,
            schema,
            rule,
            numbers: answer.try_into().expect("seven numbers"),
            path,
        });
        count += 1;
    }
    assert_eq!(count, 1_438);
}

/// Calls the function on every load of the list: table, length of the buffer, answer.
fn for_each_load(mut look: impl FnMut(&[u8], usize, u32)) {
    let list = list("loads.txt");
    let mut rest = list.as_slice();
    let mut count = 0;
    while !rest.is_empty() {
        let [table, buffer, number] = numbers(line(&mut rest))[..] else {
            panic!("a load has three numbers");
        };
        let table = take(&mut rest, table);
        assert_eq!(take(&mut rest, 1), b"\n");
        look(table, buffer as usize, number as u32);
        count += 1;
    }
    assert_eq!(count, 557);
}

#[test]
fn the_c_function_answers_every_case_and_keeps_the_other_bytes() {
    let before = vec![0xAA; PATH_BYTES + 3];
    for_each_case(|case| {
        let (mut path, mut result) = (before.clone(), [0xBB; CHECK_RESULT_BYTES + 5]);
        assert_eq!(case.run(&mut path, &mut result), case.numbers[0]);
        let found = [0, 1, 2, 3, 4, 5, 6].map(|index| raw::field(&result, index));
        assert_eq!(found, case.numbers);
        assert_eq!(path[..case.path.len()], *case.path);
        assert_eq!(path[case.path.len()..], before[case.path.len()..]);
        assert_eq!(result[CHECK_RESULT_BYTES..], [0xBB; 5]);
    });
}

#[test]
fn short_buffers_are_refused_before_the_table() {
    for_each_case(|case| {
        for (path, result) in [
            (PATH_BYTES - 1, CHECK_RESULT_BYTES),
            (PATH_BYTES, CHECK_RESULT_BYTES - 1),
        ] {
            let (mut path, mut result) = (vec![0xAA; path], vec![0xBB; result]);
            let earlier = matches!(case.numbers[0], 1 | 2);
            let expected = if earlier { case.numbers[0] } else { 3 };
            assert_eq!(case.run(&mut path, &mut result), expected);
            assert!(path.iter().all(|&byte| byte == 0xAA));
        }
    });
}

#[test]
fn the_typed_check_answers_every_case() {
    for_each_case(|case| {
        let [number, _, detail, place, _, passed, _] = case.numbers;
        let Some((kind, semantics)) = case.settings() else {
            assert_eq!(number, 1);
            return;
        };
        let check = Check::new(kind, semantics, case.label).table(case.table);
        match check.run(case.schema, case.rule) {
            Err(refusal) => assert_eq!((refusal.number(), detail, passed), (number, 0, 0)),
            Ok(checked) => match checked.verdict {
                Verdict::Accepted { passed } => {
                    assert_eq!([0, 0, 0, 0, 0, passed, 0], case.numbers)
                }
                Verdict::Defect(defect) => {
                    assert_eq!(defect.path.as_bytes(), case.path);
                    let found = (defect.number.number(), defect.detail.number(), defect.place);
                    assert_eq!(found, (number, detail, place));
                    assert_eq!(defect.passed, passed);
                }
            },
        }
    });
}

/// Refusals 37 and 38 are those that `Table::read` explains.
#[test]
fn a_refused_table_is_explained() {
    let mut seen = BTreeSet::new();
    for_each_case(|case| {
        let lent = &case.table[..case.table.len().min(TABLE_BYTES)];
        let number = Table::read(lent).map_or_else(|error| error.number(), |_| 0);
        match case.numbers[0] {
            refused @ (37 | 38) => assert_eq!(number, refused),
            1..=3 => {}
            _ if case.table.is_empty() => {}
            _ => assert_eq!(number, 0),
        }
        seen.insert(case.numbers[0]);
    });
    assert!(
        [0, 4, 5, 18, 37, 38]
            .iter()
            .all(|number| seen.contains(number))
    );
}

#[test]
fn loads_are_answered_and_keep_the_other_bytes() {
    for_each_load(|table, length, number| {
        let before = vec![0xCC; length];
        let mut buffer = before.clone();
        assert_eq!(raw::load_table(table, &mut buffer), number);
        let loaded = if number == 0 { TABLE_BYTES } else { 0 };
        assert_eq!(buffer[..loaded], table[..loaded]);
        assert_eq!(buffer[loaded..], before[loaded..]);

        let mut again = before.clone();
        match Table::load(table, &mut again) {
            Ok(()) => assert_eq!(Table::read(&again[..TABLE_BYTES]), Table::read(table)),
            Err(TableError::ShortBuffer { bytes }) => {
                assert!(bytes == length && bytes < TABLE_BYTES)
            }
            Err(error) => assert_eq!((error.number(), error.fault().is_some()), (number, true)),
        }
        assert_eq!(again, buffer);
    });
}

/// A table that is written is one that is read and loaded, whatever it shows, if it keeps both conditions.
#[test]
fn builders_write_what_the_library_takes() {
    let mut random = Random(0x5EED_0011);
    let (schema, template) = (b"H,0,0,-,0\n", b"T\nV,1,0,\n");
    let mut refused = 0;
    for _ in 0..2_000 {
        let mut table = Table::stock();
        for _ in 0..random.below(12) {
            let (kind, name) = (random.pick(Kind::ALL), random.pick(Name::ALL));
            table = if random.chance(2) {
                table.show(kind, name)
            } else {
                table.hide(kind, name)
            };
        }
        let keeps = |kind: Kind| {
            [Name::Id, Name::Entity, Name::Version]
                .iter()
                .all(|&name| table.shows(kind, name))
                && (table.shows(kind, Name::Fields) || !table.shows(kind, Name::OldFields))
        };
        match table.sheet() {
            Ok(sheet) => {
                assert!(Kind::ALL.iter().all(|&kind| keeps(kind)));
                assert_eq!(sheet.len(), TABLE_BYTES);
                assert_eq!(Table::read(&sheet).as_ref(), Ok(&table));
                assert_eq!(Table::load(&sheet, &mut [0; 200]), Ok(()));
                let check = Check::new(Kind::Invariant, Semantics::Kernel1, "r").table(&sheet);
                assert!(check.run(schema, template).is_ok());
            }
            Err(error) => {
                let TableError::Mark { kind, .. } = error else {
                    panic!("a builder's table has its form: {error}");
                };
                assert!(!keeps(kind));
                refused += 1;
            }
        }
    }
    assert!((200..1_800).contains(&refused), "{refused}");
}

fn bare_verdict(kind: Kind, table: &[u8], text: &str) -> Option<Detail> {
    let schema = Schema::new().sheet().expect("a small schema");
    let template = Template::new(text).sheet().expect("a small template");
    let check = Check::new(kind, Semantics::Kernel1, "t").table(table);
    let checked = check.run(&schema, &template).expect("a verdict");
    checked.verdict.defect().map(|defect| defect.detail)
}

#[test]
fn each_mark_decides_over_its_name_and_kind() {
    let hidden = Some(Detail::Reference(ReferenceFault::NoSuchReference));
    for &kind in Kind::ALL {
        for &name in Name::ALL {
            let shown = Table::stock().show(kind, Name::Fields).show(kind, name);
            let text = format!("${name}");
            let sheet = shown.sheet().expect("both conditions are kept");
            assert_eq!(bare_verdict(kind, &sheet, &text), None, "{kind} {name}");
            let other = shown.hide(kind, Name::OldFields).hide(kind, name);
            match other.sheet() {
                Ok(sheet) => assert_eq!(bare_verdict(kind, &sheet, &text), hidden),
                Err(error) => assert_eq!(error, TableError::Mark { kind, name }),
            }
        }
    }
}

#[test]
fn a_check_without_a_table_goes_by_the_stock_table() {
    let stock = Table::stock().sheet().expect("the stock table is sound");
    for &kind in Kind::ALL {
        for &name in Name::ALL {
            let text = format!("${name}");
            let expected = kind.names().contains(&name.text());
            for table in [&[][..], &stock, &[&stock[..], b"after"].concat()] {
                assert_eq!(bare_verdict(kind, table, &text).is_none(), expected);
            }
        }
    }
}

#[test]
fn a_shown_root_is_walked() {
    let table = Table::stock().show(Kind::CreateSelector, Name::Fields);
    let table = table.sheet().expect("a sound table");
    let detail = |table: &[u8]| bare_verdict(Kind::CreateSelector, table, "$fields.bars");
    let fault = |fault| Some(Detail::Reference(fault));
    assert_eq!(detail(&[]), fault(ReferenceFault::RootNotAvailable));
    assert_eq!(detail(&table), fault(ReferenceFault::UnknownRoot));
}

/// The first mark that breaks a condition is named, row by row.
#[test]
fn broken_conditions_are_named() {
    for &kind in Kind::ALL {
        for name in [Name::Id, Name::Entity, Name::Version] {
            let later = Table::stock().hide(Kind::CreateOutcomeTemplate, Name::Version);
            let error = later.hide(kind, name).sheet().unwrap_err();
            assert_eq!(error, TableError::Mark { kind, name });
        }
        let alone = Table::stock()
            .hide(kind, Name::Fields)
            .show(kind, Name::OldFields);
        let name = Name::OldFields;
        assert_eq!(alone.sheet(), Err(TableError::Mark { kind, name }));
    }
}

/// A fault is reported by its row and its byte, where the mark is or something in its place.
#[test]
fn faults_are_told_by_row_and_mark() {
    let stock = Table::stock().sheet().expect("the stock table is sound");
    for (row, &kind) in Kind::ALL.iter().enumerate() {
        for (mark, &name) in Name::ALL.iter().enumerate() {
            let byte = row * 22 + 4 + 2 * mark;
            let mut table = stock.clone();
            table[byte] = b'x';
            let error = Table::read(&table).unwrap_err();
            let expected = format!("the mark of ${name} for {kind}, 0 or 1");
            let fault = error.fault().expect("the table's fault");
            assert_eq!((fault.entry, fault.byte), (row + 1, byte));
            assert_eq!(fault.expected, expected);
            assert_eq!(error.refusal(), Refusal::TableForm);
        }
        let mut table = stock.clone();
        table[row * 22 + 4] = b'0';
        let error = Table::read(&table).unwrap_err();
        assert_eq!(
            error,
            TableError::Mark {
                kind,
                name: Name::Id
            }
        );
        let fault = error.fault().expect("the table's fault");
        assert_eq!((fault.entry, fault.byte), (row + 1, row * 22 + 4));
    }
}

#[test]
fn what_is_no_table_is_told_apart() {
    let stock = Table::stock().sheet().expect("the stock table is sound");
    let text = String::from_utf8(stock).expect("ASCII");
    for (table, told) in [
        (
            "",
            "entry 1, byte 0: expected `N`, which begins the row of invariant",
        ),
        (
            &text[22..],
            "entry 1, byte 2: expected 1, the number of invariant",
        ),
        (
            &text.replace("N,3", "N,03"),
            "entry 3, byte 46: expected 3, the number of create_template",
        ),
        (
            &text.replace('\n', "\r\n"),
            "entry 1, byte 21: expected the end of the entry, byte 0A alone, not 0D before it",
        ),
        (
            &format!("{text}\n"),
            "entry 9, byte 176: expected the end of the sheet",
        ),
        (
            &text.replace("N,8,1", "N,8"),
            "entry 8, byte 173: expected a comma",
        ),
    ] {
        let error = Table::read(table.as_bytes()).unwrap_err();
        assert_eq!(error.to_string(), told);
        assert_eq!(error.number(), 37);
    }
}

#[test]
fn the_order_of_refusals() {
    let unsound = Table::stock().sheet().expect("the stock table is sound");
    let unsound = [b"N,1,0", &unsound[5..]].concat();
    let run = |label: &[u8], table: &[u8], schema: &[u8]| {
        let check = Check::new(Kind::Invariant, Semantics::Kernel1, label).table(table);
        check.run(schema, b"")
    };
    let good = b"H,0,0,-,0\n";
    assert_eq!(run(b"\xFF", b"N", b""), Err(Refusal::Label));
    assert_eq!(run(b"", b"N", b""), Err(Refusal::TableForm));
    assert_eq!(run(b"", &unsound, b""), Err(Refusal::TableMark));
    assert_eq!(run(b"", &[], b""), Err(Refusal::SchemaSheet));
    assert_eq!(run(b"", &[], good), Err(Refusal::RuleSheet));
    assert_eq!(run(b"", &unsound[..175], good), Err(Refusal::TableForm));
}

/// The short functions answer as the full one that is lent nothing.
#[test]
fn both_sheets_go_to_the_full_function() {
    let schema = Schema::new().sheet().expect("a small schema");
    let rule = Rule::new(Condition::exists("$state"))
        .sheet()
        .expect("a small rule");
    let template = Template::new("$state").sheet().expect("a small template");
    for &kind in Kind::ALL {
        let full = Check::new(kind, Semantics::Service1, "r");
        let verdict = |sheet: &[u8]| full.run(&schema, sheet).map(|checked| checked.verdict);
        let semantics = Semantics::Service1;
        assert_eq!(
            verdict(&rule),
            check_rule(kind, semantics, "r", &schema, &rule)
        );
        assert_eq!(
            verdict(&template),
            check_template(kind, semantics, "r", &schema, &template)
        );
        assert_eq!(verdict(b"H"), check(kind, semantics, "r", &schema, b"H"));
    }
}

/// Whatever is handed over, the answer is one of the format's, and buffers keep what they should.
#[test]
fn the_c_functions_answer_anything() {
    let mut random = Random(0x5EED_0012);
    let stock = Table::stock().sheet().expect("the stock table is sound");
    let kept = vec![0xAA; PATH_BYTES + 7];
    let mut seen = BTreeSet::new();
    for _ in 0..10_000 {
        let mut table = stock.clone();
        match random.below(6) {
            0 => table.clear(),
            1 => table.truncate(random.below(TABLE_BYTES)),
            2 | 3 => {
                let at = random.below(TABLE_BYTES);
                table[at] = random.pick(b"01012N,\n\x80");
            }
            4 => table.extend(b"after"),
            _ => {}
        }
        let rule = random.pick(&[
            &b"T\nV,5,6,$state\n"[..],
            b"R,-,-,\nC,5,0,\nV,5,9,$fields.a\n",
            b"T\n",
        ]);
        let mut path = vec![0xAA; random.pick(&[PATH_BYTES, PATH_BYTES, PATH_BYTES + 7, 9])];
        let mut result = vec![0xBB; random.pick(&[32, 32, 32, 34, 31])];
        let (kind, semantics) = (random.below(10) as u64, random.below(6) as u64);
        let number = raw::check(
            kind,
            semantics,
            b"l",
            &table,
            b"H,0,0,-,0\n",
            rule,
            &mut path,
            &mut [0; MARKS_BYTES],
            &mut result,
        );
        assert!(matches!(number, 0..=3 | 5 | 18 | 37 | 38), "{number}");
        seen.insert(number);
        let written = if number == 18 {
            raw::field(&result, 6) as usize
        } else {
            0
        };
        assert!(path[written..] == kept[written..path.len()]);
        if result.len() < CHECK_RESULT_BYTES {
            assert!((1..=3).contains(&number) && result.iter().all(|&byte| byte == 0xBB));
        } else {
            assert_eq!(raw::field(&result, 0), number);
        }
        let mut buffer = vec![0xCC; random.pick(&[0, 175, 176, 200])];
        let loaded = raw::load_table(&table, &mut buffer);
        assert!(matches!(loaded, 0 | 37 | 38), "{loaded}");
        let start = if loaded == 0 { &table[..] } else { &[] };
        assert!(
            buffer.starts_with(start) && buffer[start.len()..].iter().all(|&byte| byte == 0xCC)
        );
    }
    assert!(seen.into_iter().eq([0, 1, 3, 5, 18, 37, 38]));
}

#[test]
fn names_are_read_with_or_without_their_sign() {
    for &name in Name::ALL {
        assert_eq!(name.text().parse(), Ok(name));
        assert_eq!(format!("${name}").parse(), Ok(name));
    }
    let error = "$$id".parse::<Name>().unwrap_err();
    assert!(error.to_string().starts_with(
        "\"$$id\" is not a known name; expected one of id, entity, version, fields, state,"
    ));
}
