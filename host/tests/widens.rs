//! The fixed list of pairs of schemas (host/vectors/widens.txt) replayed through the crate, and the edges of docs/FORMAT.md, "Is it a widening?".

mod support;

use entity_rules::limits::RESULT_BYTES;
use entity_rules::{
    Breach, BreachReason, Condition, Field, FieldKind, Kind, Refusal, Rule, Schema, SchemaSheet,
    Semantics, Widening, check_rule, raw, widens,
};
use std::collections::BTreeSet;
use support::{Random, line, list, take};

/// One case: two sheets, and the five numbers of the answer that may differ from 0.
struct Case<'a> {
    first: &'a [u8],
    second: &'a [u8],
    numbers: [u32; 5],
}

impl Case<'_> {
    fn expected(&self) -> Result<Widening, Refusal> {
        match self.numbers {
            [0, 1, 0, 0, 0] => Ok(Widening::Marks),
            [0, 2, 0, 0, 0] => Ok(Widening::Anything),
            [0, 3, reason, old, new] => {
                let reason = BreachReason::from_number(reason).expect("a reason");
                Ok(breach(reason, old, new))
            }
            [4, 1, 0, 0, 0] => Err(Refusal::SchemaSheet),
            [4, 2, 0, 0, 0] => Err(Refusal::NewSchemaSheet),
            other => panic!("{other:?} is not an answer to two schemas"),
        }
    }
}

/// Calls the function on every case of the list.
fn for_each_case(mut look: impl FnMut(&Case)) {
    let list = list("widens.txt");
    let mut rest = list.as_slice();
    let mut count = 0;
    while !rest.is_empty() {
        let numbers = line(&mut rest).split(',').map(str::parse);
        let numbers: Vec<u32> = numbers.collect::<Result<_, _>>().expect("numbers");
        let [first, second, answer @ ..] = &numbers[..] else {
            panic!("a case has seven numbers");
        };
        let [first, second] = [first, second].map(|count| take(&mut rest, u64::from(*count)));
        assert_eq!(take(&mut rest, 1), b"\n");
        look(&Case {
            first,
            second,
            numbers: answer.try_into().expect("five numbers"),
        });
        count += 1;
    }
    assert_eq!(count, 1_194);
}

#[test]
fn the_typed_function_answers_every_case() {
    for_each_case(|case| assert_eq!(widens(case.first, case.second), case.expected()));
}

#[test]
fn the_c_function_answers_every_case_and_keeps_the_other_bytes() {
    for_each_case(|case| {
        let mut result = [0xBB; RESULT_BYTES + 9];
        let number = raw::widens(case.first, case.second, &mut result);
        assert_eq!(number, case.numbers[0]);
        let numbers = [0, 1, 2, 3, 4, 5, 6].map(|index| raw::field(&result, index));
        let [number, answer, reason, first, second] = case.numbers;
        assert_eq!(numbers, [number, answer, reason, first, second, 0, 0]);
        assert_eq!(result[RESULT_BYTES..], [0xBB; 9]);
    });
}

#[test]
fn the_list_has_every_answer_and_every_reason() {
    let mut seen = BTreeSet::new();
    for_each_case(|case| {
        let [number, answer, reason, ..] = case.numbers;
        seen.insert((number, answer, reason));
    });
    let reasons = (1..=7).map(|reason| (0, 3, reason));
    let yes = [(0, 1, 0), (0, 2, 0)].into_iter();
    let refused = [(4, 1, 0), (4, 2, 0)];
    assert!(seen.into_iter().eq(yes.chain(reasons).chain(refused)));
}

/// The answer for a sheet and itself, where a check takes it.
#[test]
fn every_schema_is_a_widening_of_itself() {
    for_each_case(|case| {
        for sheet in [case.first, case.second] {
            let expected = match support::takes_schema(sheet) {
                true => Ok(Widening::Marks),
                false => Err(Refusal::SchemaSheet),
            };
            assert_eq!(widens(sheet, sheet), expected);
        }
    });
}

fn sheet(schema: Schema) -> SchemaSheet {
    schema.sheet().expect("a small schema")
}

fn answer(old: &Schema, new: &Schema) -> Widening {
    widens(&sheet(old.clone()), &sheet(new.clone())).expect("two schemas")
}

fn breach(reason: BreachReason, old: u32, new: u32) -> Widening {
    let entry = |number| (number != 0).then_some(number);
    Widening::Breach(Breach {
        reason,
        old_entry: entry(old),
        new_entry: entry(new),
    })
}

/// A record with a list of bars and a yarn; its arguments say who.
fn old() -> Schema {
    with(bars(), yarn()).argument(Field::new("by", FieldKind::String))
}

fn with(bars: Field, yarn: Field) -> Schema {
    Schema::new().field(bars).field(yarn)
}

fn bars() -> Field {
    let bar = Field::element(FieldKind::Object).property(Field::new("number", FieldKind::Integer));
    Field::new("bars", FieldKind::Array).items(bar)
}

fn yarn() -> Field {
    Field::new("yarn", FieldKind::Union).tag("sort")
}

#[test]
fn nothing_differs() {
    assert_eq!(answer(&old(), &old()), Widening::Marks);
    assert_eq!(answer(&Schema::new(), &Schema::new()), Widening::Marks);
}

#[test]
fn marks_open() {
    assert_eq!(answer(&old(), &old().open()), Widening::Marks);
    assert_eq!(answer(&old(), &old().open_arguments()), Widening::Marks);
    let open = with(bars(), yarn().open()).argument(Field::new("by", FieldKind::String));
    assert_eq!(answer(&old(), &open), Widening::Marks);
    assert_eq!(
        answer(&open, &old()),
        breach(BreachReason::MarkCloses, 5, 5)
    );
    assert_eq!(
        answer(&old().open(), &old()),
        breach(BreachReason::MarkCloses, 1, 1)
    );
    assert_eq!(
        answer(&old().open_arguments(), &old()),
        breach(BreachReason::MarkCloses, 1, 1)
    );
}

#[test]
fn fields_are_added_where_the_old_schema_is_closed() {
    let dye = Field::new("dye", FieldKind::Json);
    assert_eq!(
        answer(&old(), &old().field(dye.clone())),
        Widening::Anything
    );
    assert_eq!(
        answer(&old(), &old().open().field(dye.clone())),
        Widening::Anything
    );
    assert_eq!(
        answer(&old().open(), &old().open().field(dye.clone())),
        breach(BreachReason::FieldAdded, 0, 5)
    );
    assert_eq!(
        answer(&old().field(dye), &old()),
        breach(BreachReason::FieldMissing, 5, 0)
    );
}

#[test]
fn arguments_come_and_never_go() {
    let none = with(bars(), yarn());
    assert_eq!(answer(&none, &old()), Widening::Anything);
    assert_eq!(answer(&none, &none.clone().arguments()), Widening::Anything);
    let gone = breach(BreachReason::ArgumentsGo, 1, 0);
    assert_eq!(answer(&old(), &none), gone);
    assert_eq!(answer(&none.clone().arguments(), &none), gone);
}

#[test]
fn what_a_field_is_stays() {
    let new = |bars, yarn| with(bars, yarn).argument(Field::new("by", FieldKind::String));
    let json = new(bars(), Field::new("yarn", FieldKind::Json).tag("sort"));
    assert_eq!(
        answer(&old(), &json),
        breach(BreachReason::KindDiffers, 5, 5)
    );
    let elementless = new(Field::new("bars", FieldKind::Array), yarn());
    assert_eq!(
        answer(&old(), &elementless),
        breach(BreachReason::ItemsDiffer, 2, 2)
    );
    assert_eq!(
        answer(&elementless, &old()),
        breach(BreachReason::ItemsDiffer, 2, 2)
    );
    for tagged in [
        Field::new("yarn", FieldKind::Union),
        Field::new("yarn", FieldKind::Union).tag(""),
        Field::new("yarn", FieldKind::Union).tag("kind"),
    ] {
        let tagged = new(bars(), tagged);
        assert_eq!(
            answer(&old(), &tagged),
            breach(BreachReason::TagDiffers, 5, 5)
        );
    }
}

#[test]
fn the_first_breach_is_told() {
    use BreachReason::{ArgumentsGo, FieldAdded, FieldMissing, KindDiffers, MarkCloses};
    // Of the head: the record's mark, whether the arguments are gone, their mark.
    let open = Schema::new().open().open_arguments();
    let first = breach(MarkCloses, 1, 1);
    assert_eq!(answer(&open, &Schema::new()), first);
    let gone = breach(ArgumentsGo, 1, 0);
    assert_eq!(answer(&open, &Schema::new().open()), gone);
    // Of two names the smaller, whichever sheet has it.
    let named = |name: &str| Schema::new().open().field(Field::new(name, FieldKind::Ref));
    let missing = breach(FieldMissing, 2, 0);
    let added = breach(FieldAdded, 0, 2);
    assert_eq!(answer(&named("a"), &named("b")), missing);
    assert_eq!(answer(&named("b"), &named("a")), added);
    // A field's own entry comes before its element, and that before its properties.
    let list = |element: FieldKind, property: FieldKind| {
        let field = Field::new("f", FieldKind::Map).items(element);
        Schema::new().field(field.property(Field::new("", property)))
    };
    let one = list(FieldKind::Ref, FieldKind::Ref);
    let two = list(FieldKind::Json, FieldKind::Json);
    assert_eq!(answer(&one, &two), breach(KindDiffers, 3, 3));
    let two = list(FieldKind::Ref, FieldKind::Json);
    assert_eq!(answer(&one, &two), breach(KindDiffers, 4, 4));
}

#[test]
fn refusals_say_which_sheet() {
    let good = sheet(old());
    assert_eq!(widens(b"", b""), Err(Refusal::SchemaSheet));
    assert_eq!(widens(b"", &good), Err(Refusal::SchemaSheet));
    assert_eq!(widens(&good, b""), Err(Refusal::NewSchemaSheet));
    assert_eq!(Refusal::NewSchemaSheet.number(), 4);
    assert_eq!(
        Refusal::NewSchemaSheet.to_string(),
        "the new schema's sheet is not well formed"
    );
}

#[test]
fn a_short_result_is_refused_first_and_kept() {
    let good = sheet(old());
    for bytes in 0..RESULT_BYTES {
        for (one, two) in [(&good[..], &good[..]), (b"", &good), (&good, b"")] {
            let mut result = vec![0xBB; bytes];
            assert_eq!(raw::widens(one, two, &mut result), 3);
            assert!(result.iter().all(|&byte| byte == 0xBB));
        }
    }
}

#[test]
fn no_bytes_upset_it() {
    let good = sheet(old());
    let mut random = Random(7);
    for _ in 0..20_000 {
        let mut bad = Vec::from(good.clone());
        let (at, byte) = (random.below(bad.len()), random.next() as u8);
        bad[at] = byte;
        bad.truncate(random.below(bad.len()) + 1 + 4 * at);
        let (one, two) = (widens(&good, &bad), widens(&bad, &good));
        let taken = support::takes_schema(&bad);
        assert_eq!(one == Err(Refusal::NewSchemaSheet), !taken);
        assert_eq!(two == Err(Refusal::SchemaSheet), !taken);
        assert!(!matches!(one, Err(Refusal::Unknown(_) | Refusal::Width)));
        assert!(!matches!(two, Err(Refusal::Unknown(_) | Refusal::Width)));
    }
}

#[test]
fn what_was_accepted_stays_accepted() {
    let rule = Rule::new(Condition::all([
        Condition::gt("$fields.bars.0.number", 1),
        Condition::exists("$args.by"),
    ]));
    let rule = rule.sheet().expect("a small rule");
    let check = |schema: Schema| {
        let schema = sheet(schema);
        check_rule(Kind::Precondition, Semantics::Service1, "r", &schema, &rule)
    };
    let before = check(old());
    assert!(before.as_ref().is_ok_and(|verdict| verdict.is_accepted()));
    let grown = old().open().field(Field::new("dye", FieldKind::Json));
    assert!(answer(&old(), &grown).is_widening());
    assert_eq!(check(grown), before);
}
