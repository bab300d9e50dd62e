//! Constant conditions (docs/FORMAT.md, "Constant marks") through the crate, and the list that is lent for them.

mod support;

use entity_rules::limits::{CHECK_RESULT_BYTES, MARKS_BYTES, PATH_BYTES};
use entity_rules::{
    Check, Condition, Constant, Kind, Rule, Schema, Semantics, Table, Template, Verdict, instant,
    raw,
};
use support::{Random, line, list, numbers, take};

const SCHEMA: &[u8] = b"H,1,0,-,0\n";

/// The constant conditions that a check finds.
fn found(condition: Condition) -> Vec<(u32, bool)> {
    let rule = Rule::new(condition).sheet().expect("a sheet");
    let check = Check::new(Kind::Precondition, Semantics::Service1, "r");
    let checked = check.run(SCHEMA, &rule).expect("no refusal");
    let constants = checked.constants.iter();
    constants
        .map(|constant| (constant.entry, constant.holds))
        .collect()
}

#[test]
fn before_and_after_go_by_the_fields() {
    for (left, right, before, after) in [
        ("2024-02-29", "2024-03-01", true, false),
        ("2024-03-01", "2024-02-29", false, true),
        ("2024-01-01", "2024-01-01 00:00:00.000Z", false, false),
        ("2024-01-01T23:58:60", "2024-01-01t23:59:00z", true, false),
        ("0000-01-01", "9999-12-31", true, false),
        (
            "2024-01-01 00:00:00.1",
            "2024-01-01 00:00:00.100000001",
            true,
            false,
        ),
        (" 2024-01-01\n", "2024-01-01", false, false),
    ] {
        assert_eq!(found(Condition::before(left, right)), [(2, before)]);
        assert_eq!(found(Condition::after(left, right)), [(2, after)]);
        assert_eq!(before, instant(left) < instant(right));
        assert_eq!(after, instant(left) > instant(right));
    }
}

#[test]
fn only_two_literal_instants_are_constant() {
    let (early, late) = ("2024-01-01", "2024-01-02");
    for condition in [
        Condition::before("$fields.d", late),
        Condition::before(early, "$fields.d"),
        Condition::after("$id", "$id"),
        Condition::eq(early, late),
        Condition::lt(early, late),
        Condition::literal(true),
        Condition::starts_with(early, "2024"),
    ] {
        assert_eq!(found(condition), []);
    }
}

#[test]
fn it_does_not_matter_where_they_stand() {
    let constant = || Condition::before("2024-01-01", "2024-01-02");
    let condition = Condition::all([
        constant(),
        Condition::not(Condition::after("2024-01-01", "2024-01-02")),
        Condition::for_all("b", "$fields.bars", Condition::any([constant()])),
        Condition::exists("$fields.d"),
    ]);
    assert_eq!(found(condition), [(3, true), (7, false), (13, true)]);
}

#[test]
fn what_is_not_accepted_has_none() {
    let rule = Rule::new(Condition::all([
        Condition::before("2024-01-01", "2024-01-02"),
        Condition::exists("$nothing"),
    ]));
    let check = Check::new(Kind::Precondition, Semantics::Service1, "r");
    let checked = check.run(SCHEMA, &rule.sheet().expect("a sheet"));
    let checked = checked.expect("no refusal");
    assert!(checked.verdict.defect().is_some());
    assert_eq!(checked.constants, []);
    let template = Template::new("2024-01-01").sheet().expect("a sheet");
    let checked = check.run(SCHEMA, &template).expect("no refusal");
    assert_eq!(checked.verdict, Verdict::Accepted { passed: 0 });
    assert_eq!(checked.constants, []);
}

/// A call with lists and buffers of these lengths, filled before: the number, the list, the result.
fn call(
    table: &[u8],
    rule: &[u8],
    [path, marks, result]: [usize; 3],
) -> (u32, Vec<u8>, Vec<u8>, Vec<u8>) {
    let (mut path, mut marks) = (vec![0xAA; path], vec![0xCC; marks]);
    let mut result = vec![0xBB; result];
    let number = raw::check(
        1,
        1,
        b"r",
        table,
        SCHEMA,
        rule,
        &mut path,
        &mut marks,
        &mut result,
    );
    (number, path, marks, result)
}

const CONSTANT: &[u8] = b"R,-,-,\nC,7,0,\nV,5,10,2024-01-02\nV,5,10,2024-01-01\n";

#[test]
fn a_short_list_is_refused_in_its_place() {
    let (path, marks, result) = (PATH_BYTES, MARKS_BYTES, CHECK_RESULT_BYTES);
    for (table, lengths, expected) in [
        (&b""[..], [path, marks, result], 0),
        (b"", [path, marks - 1, result], 35),
        (b"", [path, 0, result], 35),
        (b"N", [path, marks - 1, result], 35),
        (b"N", [path, marks, result], 37),
        (b"", [path - 1, marks - 1, result], 3),
        (b"", [path, marks - 1, result - 1], 3),
        (b"", [path, marks, 28], 3),
    ] {
        let (number, path, marks, result) = call(table, CONSTANT, lengths);
        assert_eq!(number, expected, "{lengths:?}");
        if number != 0 {
            assert!(marks.iter().all(|&byte| byte == 0xCC));
        }
        assert!(path.iter().all(|&byte| byte == 0xAA));
        if result.len() >= CHECK_RESULT_BYTES {
            assert_eq!(raw::field(&result, 0), number);
            assert_eq!(raw::field(&result, 7), u32::from(number == 0));
        } else {
            assert!(result.iter().all(|&byte| byte == 0xBB));
        }
    }
    let sheet = b"T\nV,1,0,\n";
    assert_eq!(call(b"", sheet, [path, marks - 1, result]).0, 35);
}

#[test]
fn all_other_bytes_are_kept() {
    let spare = [PATH_BYTES + 3, MARKS_BYTES + 6, CHECK_RESULT_BYTES + 5];
    let (number, path, marks, result) = call(b"", CONSTANT, spare);
    assert_eq!(number, 0);
    assert!(path.iter().all(|&byte| byte == 0xAA));
    assert_eq!(marks[..4], [2 * 2 + 1, 0, 0, 0]);
    assert!(marks[4..].iter().all(|&byte| byte == 0xCC));
    assert_eq!(result[28..32], [1, 0, 0, 0]);
    assert_eq!(result[32..], [0xBB; 5]);
}

#[test]
fn a_list_has_room_for_every_rule() {
    let count = 682;
    let constant = || Condition::before("2024-01-02", "2024-01-01");
    let condition = Condition::all((0..count).map(|_| constant()));
    let rule = Rule::new(condition).sheet().expect("a sheet");
    let check = Check::new(Kind::Invariant, Semantics::Kernel1, "r");
    let checked = check.run(SCHEMA, &rule).expect("no refusal");
    let entries = (3..).step_by(3).take(count);
    let expected = entries.map(|entry| Constant {
        entry,
        holds: false,
    });
    assert!(checked.constants.into_iter().eq(expected));
}

/// A random literal instant, or a reference.
fn operand(random: &mut Random) -> String {
    let day = random.pick(&["2024-01-01", "2024-01-02"]);
    let time = random.pick(&["", " 00:00:00", "T00:00:00.0Z", "t00:00:01z"]);
    match random.below(6) {
        0 => "$fields.d".to_owned(),
        _ => format!("{day}{time}"),
    }
}

#[test]
fn the_marks_are_those_of_the_operands() {
    let mut random = Random(0x5EED_0007);
    for _ in 0..2_000 {
        let pairs: Vec<(bool, String, String)> = (0..random.below(9) + 1)
            .map(|_| {
                (
                    random.below(2) == 0,
                    operand(&mut random),
                    operand(&mut random),
                )
            })
            .collect();
        let conditions = pairs
            .iter()
            .map(|(is_before, left, right)| match is_before {
                true => Condition::before(left.as_str(), right.as_str()),
                false => Condition::after(left.as_str(), right.as_str()),
            });
        let expected = (3..).step_by(3).zip(&pairs);
        let expected = expected.filter_map(|(entry, (is_before, left, right))| {
            let (left, right) = (instant(left)?, instant(right)?);
            let holds = if *is_before {
                left < right
            } else {
                left > right
            };
            Some((entry, holds))
        });
        assert_eq!(
            found(Condition::all(conditions)),
            expected.collect::<Vec<_>>()
        );
    }
}

#[test]
fn tables_and_lists_go_together() {
    let table = Table::stock().sheet().expect("a table");
    let schema = Schema::new().sheet().expect("a schema");
    let check = Check::new(Kind::Invariant, Semantics::Kernel1, "r").table(&table);
    let checked = check.run(&schema, CONSTANT).expect("no refusal");
    let expected = Constant {
        entry: 2,
        holds: true,
    };
    assert_eq!(checked.constants, [expected]);
}

#[test]
fn the_fixed_list_is_answered() {
    let list = list("marks.txt");
    let mut rest = list.as_slice();
    let (mut cases, mut constants) = (0, 0);
    while !rest.is_empty() {
        let numbers = numbers(line(&mut rest));
        let (head, marks) = numbers.split_at(6);
        let [kind, semantics, table, schema, rule, number] = head[..] else {
            panic!("a case has six numbers");
        };
        let [table, schema, rule] = [table, schema, rule].map(|count| take(&mut rest, count));
        assert_eq!(take(&mut rest, 1), b"\n");
        let kind = Kind::from_number(kind as u32).expect("a kind");
        let semantics = Semantics::from_number(semantics as u32).expect("a semantics");
        let found = Check::new(kind, semantics, "r")
            .table(table)
            .run(schema, rule);
        match found {
            Err(refusal) => assert_eq!((u64::from(refusal.number()), marks), (number, &[][..])),
            Ok(checked) => {
                let defect = checked.verdict.defect();
                let found = defect.map_or(0, |defect| defect.number.number());
                assert_eq!(u64::from(found), number);
                let found = checked.constants.iter();
                let found = found.map(|one| u64::from(2 * one.entry + u32::from(one.holds)));
                assert!(found.eq(marks.iter().copied()));
            }
        }
        cases += 1;
        constants += marks.len();
    }
    assert_eq!((cases, constants > 1_000), (1_101, true));
}
