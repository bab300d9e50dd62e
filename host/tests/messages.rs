//! The message of a defect (docs/FORMAT.md, "Messages") through the crate, and the buffer that is lent for it.

mod support;

use entity_rules::limits::{EXPLAIN_RESULT_BYTES, MARKS_BYTES, PATH_BYTES};
use entity_rules::{
    Check, Condition, Defect, Kind, Name, Rule, Semantics, Table, Template, Value, check, raw,
};
use support::{line, list, numbers, take};

const SCHEMA: &[u8] = b"H,0,0,-,0\n";

/// The defect of a rule under service/1.
fn defect(condition: Condition) -> Defect {
    let rule = Rule::new(condition).sheet().expect("a sheet");
    let verdict = check(Kind::Precondition, Semantics::Service1, "r", SCHEMA, &rule);
    let verdict = verdict.expect("no refusal");
    verdict.defect().expect("a defect").clone()
}

#[test]
fn a_sentence_or_a_word() {
    for (condition, message) in [
        (
            Condition::all([]),
            "'all' must contain at least one condition",
        ),
        (
            Condition::exists("$fields.it's"),
            "'$fields.it's' cannot resolve: unknown field 'it's'",
        ),
        (
            Condition::for_any("a.b", "$id", Condition::literal(true)),
            "a.b",
        ),
        (Condition::for_any("", "$id", Condition::literal(true)), ""),
        (
            Condition::for_any("b", 1, Condition::literal(true)),
            "`in` is a reference to an array or map field",
        ),
        (
            (0..40).fold(Condition::literal(true), |inner, _| Condition::not(inner)),
            "41",
        ),
        (
            Condition::starts_with("$id", Value::array(["a\"\n\u{1}"])),
            "[\"a\\\"\\n\\u0001\"] is not a string, so the rule would be false at every evaluation; quote it if it is meant as text",
        ),
    ] {
        assert_eq!(defect(condition).message, message);
    }
}

#[test]
fn the_list_of_names_is_the_stock_one_under_any_table() {
    let table = Table::stock().hide(Kind::CreateSelector, Name::Args);
    let table = table.sheet().expect("a table");
    let template = Template::new("$args").sheet().expect("a sheet");
    let check = Check::new(Kind::CreateSelector, Semantics::Kernel1, "r").table(&table);
    let checked = check.run(SCHEMA, &template).expect("no refusal");
    assert_eq!(
        checked.verdict.defect().expect("a defect").message,
        "'$args' is not a reference available here; a creation outcome selector may read $id, $entity, $version, $args, $args.<path>"
    );
}

/// A message is written out whole, however long it is.
#[test]
fn a_long_message_is_whole() {
    let controls = "\u{1}".repeat(500);
    let values: Vec<Value> = (0..58).map(|_| Value::string(&controls)).collect();
    let message = defect(Condition::ends_with(Value::array(values), "x")).message;
    let printed = format!("\"{}\"", "\\u0001".repeat(500));
    let printed = format!("[{}]", vec![printed; 58].join(","));
    assert!(message.len() > 170_000);
    assert_eq!(
        message.strip_suffix(" is not a string, so the rule would be false at every evaluation; quote it if it is meant as text"),
        Some(printed.as_str())
    );
}

/// What is lent, and filled before, and what comes of it.
struct Call {
    number: u32,
    path: Vec<u8>,
    message: Vec<u8>,
    result: Vec<u8>,
}

fn call(schema: &[u8], rule: &[u8], [path, marks, message, result]: [usize; 4]) -> Call {
    let [mut path, mut marks] =
        [(path, 0xAA), (marks, 0xCC)].map(|(length, byte)| vec![byte; length]);
    let [mut message, mut result] =
        [(message, 0xDD), (result, 0xBB)].map(|(length, byte)| vec![byte; length]);
    let number = raw::explain(
        2,
        2,
        b"r",
        b"",
        schema,
        rule,
        &mut path,
        &mut marks,
        &mut message,
        &mut result,
    );
    Call {
        number,
        path,
        message,
        result,
    }
}

const READ: &[u8] = b"R,-,-,\nC,5,0,\nV,5,9,$fields.a\n";
const TOLD: &[u8] = b"'$fields.a' cannot resolve: unknown field 'a'";
const WIDE: [usize; 4] = [PATH_BYTES, MARKS_BYTES, 100, EXPLAIN_RESULT_BYTES];

#[test]
fn what_does_not_fit_is_not_written() {
    for length in 0..TOLD.len() + 3 {
        let lengths = [PATH_BYTES, MARKS_BYTES, length, EXPLAIN_RESULT_BYTES + 3];
        let call = call(SCHEMA, READ, lengths);
        let fits = length >= TOLD.len();
        let numbers = [0, 8, 9].map(|index| raw::field(&call.result, index));
        let refused = if fits { 0 } else { 39 };
        assert_eq!(numbers, [18, refused, TOLD.len() as u32], "{length}");
        assert!(call.path.starts_with(b"r.assert.exists\xAA"));
        let (told, rest) = call.message.split_at(if fits { TOLD.len() } else { 0 });
        assert!(told.is_empty() || told == TOLD);
        assert!(rest.iter().all(|&byte| byte == 0xDD));
        assert_eq!(call.result[EXPLAIN_RESULT_BYTES..], [0xBB; 3]);
    }
}

#[test]
fn no_buffer_is_needed_for_no_message() {
    let accepted = call(SCHEMA, b"R,-,-,\nC,1,1,\n", [WIDE[0], WIDE[1], 0, WIDE[3]]);
    assert_eq!(accepted.number, 0);
    // A blank bind of 0 bytes is a message of 0 bytes.
    let bind = b"R,-,-,\nC,20,0,\nV,1,0,\nC,1,1,\n";
    let empty = call(SCHEMA, bind, [WIDE[0], WIDE[1], 0, WIDE[3]]);
    assert_eq!(empty.number, 21);
    for result in [accepted.result, empty.result] {
        assert_eq!([8, 9].map(|index| raw::field(&result, index)), [0, 0]);
    }
}

#[test]
fn refusals_come_first_and_write_no_message() {
    let [path, marks, message, result] = WIDE;
    for (schema, rule, lengths, expected) in [
        (SCHEMA, READ, [path - 1, marks - 1, 0, result], 3),
        (SCHEMA, READ, [path, marks - 1, message, result - 1], 3),
        (SCHEMA, READ, [path, marks - 1, 0, result], 35),
        (b"", READ, [path, marks, 0, result], 4),
        (SCHEMA, b"", [path, marks, message, result], 5),
    ] {
        let call = call(schema, rule, lengths);
        assert_eq!(call.number, expected);
        assert!(call.message.iter().all(|&byte| byte == 0xDD));
        if call.result.len() >= EXPLAIN_RESULT_BYTES {
            let numbers = [0, 8, 9].map(|index| raw::field(&call.result, index));
            assert_eq!(numbers, [expected, 0, 0]);
        } else {
            assert!(call.result.iter().all(|&byte| byte == 0xBB));
        }
    }
}

#[test]
fn the_fixed_list_is_answered() {
    let list = list("messages.txt");
    let mut rest = list.as_slice();
    let mut cases = 0;
    while !rest.is_empty() {
        let numbers = numbers(line(&mut rest));
        let [kind, semantics, parts @ .., number] = numbers.as_slice() else {
            panic!("a case has eight numbers");
        };
        let parts: Vec<&[u8]> = parts.iter().map(|count| take(&mut rest, *count)).collect();
        let [label, table, schema, rule, message] = parts[..] else {
            panic!("a case has five parts");
        };
        assert_eq!(take(&mut rest, 1), b"\n");
        let kind = Kind::from_number(*kind as u32).expect("a kind");
        let semantics = Semantics::from_number(*semantics as u32).expect("a semantics");
        let checked = Check::new(kind, semantics, label)
            .table(table)
            .run(schema, rule);
        let verdict = checked.expect("no refusal").verdict;
        let defect = verdict.defect().expect("a defect");
        assert_eq!(u64::from(defect.number.number()), *number);
        assert_eq!(defect.message.as_bytes(), message);
        if table.is_empty() {
            let alone = check(kind, semantics, label, schema, rule);
            assert_eq!(alone, Ok(verdict));
        }
        cases += 1;
    }
    assert_eq!(cases, 1_165);
}
