//! Any number of threads may check at once, each with enough stack.

use entity_rules::{
    Check, Checked, Condition, Defect, DefectNumber, Field, FieldKind, Kind, Refusal, Rule,
    RuleSheet, Schema, SchemaSheet, Semantics, Table, Value, check_rule, openings, rule_from_json,
    rule_to_json,
};
use std::thread;

#[test]
fn types_go_from_thread_to_thread() {
    const fn is_sent<T: Send + Sync>() {}
    is_sent::<(Check<'_>, Checked, Defect, Refusal, Table)>();
    is_sent::<(Schema, SchemaSheet, Rule, RuleSheet)>();
}

#[test]
fn threads_get_their_own_answers() {
    let schema = Schema::new().field(Field::new("a", FieldKind::Integer));
    let schema = schema.sheet().expect("a schema");
    thread::scope(|scope| {
        for number in 0..8_u32 {
            let schema = &schema;
            scope.spawn(move || {
                // Every second thread reads a field that is not there, after as many conditions as its number.
                let last = if number % 2 == 0 {
                    "$fields.a"
                } else {
                    "$fields.b"
                };
                let before = (0..number).map(|_| Condition::exists("$fields.a"));
                let condition = Condition::all(before.chain([Condition::exists(last)]));
                let rule = Rule::new(condition).sheet().expect("a rule");
                let label = format!("thread{number}");
                for _ in 0..500 {
                    let verdict =
                        check_rule(Kind::Invariant, Semantics::Service1, &label, schema, &rule);
                    let verdict = verdict.expect("no refusal");
                    let path = verdict.defect().map(|defect| defect.path.clone());
                    let expected =
                        (number % 2 == 1).then(|| format!("{label}.assert.all[{number}].exists"));
                    assert_eq!(path, expected);
                }
            });
        }
    });
}

/// The stack that a call takes at most, as header and README say it, that of one for a rule in JSON, and what the thread of a test takes itself.
const CALL_STACK: usize = 330_000;
const JSON_STACK: usize = 510_000;
const OWN_STACK: usize = 16 * 1024;

#[test]
fn a_thread_needs_no_more_stack_than_is_said() {
    let said = format!("up to about {} KB of stack", CALL_STACK / 1_000);
    assert!(include_str!("../include/entity_rules.h").contains(&said));
    assert!(include_str!("../README.md").contains(&said));

    let (schema, rule) = deepest();
    let call = move || check_rule(Kind::Invariant, Semantics::Service1, "r", &schema, &rule);
    let verdict = on_a_stack(CALL_STACK, call).expect("no refusal");
    let number = verdict.defect().map(|defect| defect.number);
    assert_eq!(number, Some(DefectNumber::Deep));

    let (schema, rule) = deepest();
    let call = move || openings(Kind::Invariant, Semantics::Service1, &schema, &rule);
    assert_eq!(on_a_stack(CALL_STACK, call), Ok(None));
}

#[test]
fn json_needs_no_more_stack_than_is_said() {
    let said = format!("up to about {} KB", JSON_STACK / 1_000);
    assert!(include_str!("../include/entity_rules.h").contains(&said));
    assert!(include_str!("../README.md").contains(&said));

    // As deep as JSON may nest: conditions alone, values alone, quantifiers whose bodies come first; and a rule that nests as deep as its sheet may.
    let conditions = |inner: &str, count: usize| {
        let (before, after) = (r#"{"not":"#.repeat(count), "}".repeat(count));
        format!(r#"{{"assert":{before}{inner}{after}}}"#)
    };
    let values = format!(
        r#"{{"assert":{{"exists":{}{}}}}}"#,
        "[".repeat(1_022),
        "]".repeat(1_022)
    );
    let quantifiers = format!(
        r#"{{"assert":{}true{}}}"#,
        r#"{"for_all":{"as":"b","that":"#.repeat(511),
        r#","in":1}}"#.repeat(511)
    );
    let arrays = format!("{}{}", "[".repeat(63), "]".repeat(63));
    let deepest = conditions(&format!(r#"{{"eq":[{arrays},{arrays}]}}"#), 255);
    for (text, number) in [
        (conditions("true", 1_023), 32),
        (conditions("true", 1_024), 31),
        (values, 32),
        (quantifiers, 32),
    ] {
        let call = move || rule_from_json(text).map_err(|error| error.number());
        assert_eq!(on_a_stack(JSON_STACK, call), Err(number));
    }
    let call = move || rule_from_json(deepest).map(|sheet| rule_to_json(&sheet));
    let text = on_a_stack(JSON_STACK, call).expect("a sheet");
    assert_eq!(text.map(|text| text.len()), Ok(2_313));
}

/// The sheets that take most: values as deep as may be, in conditions as deep as may be.
fn deepest() -> (SchemaSheet, RuleSheet) {
    let arrays = || (1..64).fold(Value::from("$a"), |inner, _| Value::array([inner]));
    let pair = Condition::eq(arrays(), arrays());
    let condition = (1..256).fold(pair, |inner, _| Condition::not(inner));
    let rule = Rule::new(condition).sheet().expect("a rule");
    (Schema::new().sheet().expect("a schema"), rule)
}

fn on_a_stack<T: Send + 'static>(stack: usize, call: impl FnOnce() -> T + Send + 'static) -> T {
    let thread = thread::Builder::new().stack_size(stack + OWN_STACK);
    let answer = thread.spawn(call).expect("a thread");
    answer.join().expect("an answer")
}
