//! The fixed list of rules and the marks to open for them (host/vectors/openings.txt) replayed through the crate, and what docs/FORMAT.md, "The fewest marks to open", says of every answer.

mod support;

use entity_rules::limits::{OPENING_LIST_BYTES, OPENINGS_BYTES, PATH_BYTES};
use entity_rules::{
    Check, Condition, Field, FieldKind, Kind, Refusal, Rule, Schema, Semantics, Template, Value,
    Widening, opened, openings, raw, widens,
};
use std::collections::BTreeSet;
use support::{Random, line, list, numbers, take};

/// One case of the list: what is handed over, and what is answered.
struct Case<'a> {
    kind: u64,
    semantics: u64,
    table: &'a [u8],
    schema: &'a [u8],
    rule: &'a [u8],
    number: u32,
    set: Option<Vec<u32>>,
}

/// Calls the function on every case of the list.
fn for_each_case(mut look: impl FnMut(&Case)) {
    let list = list("openings.txt");
    let mut rest = list.as_slice();
    let mut count = 0;
    while !rest.is_empty() {
        let all = numbers(line(&mut rest));
        let [
            kind,
            semantics,
            table,
            schema,
            rule,
            number,
            is_set,
            marks @ ..,
        ] = &all[..]
        else {
            panic!("a case has seven numbers and the marks");
        };
        let [table, schema, rule] = [table, schema, rule].map(|count| take(&mut rest, *count));
        assert_eq!(take(&mut rest, 1), b"\n");
        let set = marks.iter().map(|mark| *mark as u32).collect();
        look(&Case {
            kind: *kind,
            semantics: *semantics,
            table,
            schema,
            rule,
            number: *number as u32,
            set: (*is_set == 1).then_some(set),
        });
        count += 1;
    }
    assert_eq!(count, 1_193);
}

/// The check of a case, where its settings are known ones.
fn check<'a>(case: &Case<'a>) -> Option<Check<'a>> {
    let kind = case.kind.try_into().ok().and_then(Kind::from_number)?;
    let semantics = case.semantics.try_into().ok();
    let semantics = semantics.and_then(Semantics::from_number)?;
    Some(Check::new(kind, semantics, "r").table(case.table))
}

#[test]
fn the_c_function_answers_every_case_and_keeps_the_other_bytes() {
    let mut seen = BTreeSet::new();
    for_each_case(|case| {
        let (mut path, mut result) = (vec![0xAA; PATH_BYTES + 3], [0xBB; OPENINGS_BYTES + 5]);
        let mut list = vec![0xCC; OPENING_LIST_BYTES + 6];
        let number = raw::openings(
            case.kind,
            case.semantics,
            case.table,
            case.schema,
            case.rule,
            &mut path,
            &mut list,
            &mut result,
        );
        seen.insert((number, case.set.is_some()));
        let set = case.set.as_deref().unwrap_or_default();
        let found = [0, 1, 2].map(|index| raw::field(&result, index));
        let is_set = u32::from(case.set.is_some());
        assert_eq!(found, [case.number, is_set, set.len() as u32]);
        assert_eq!(number, case.number);
        let marks: Vec<u8> = set.iter().flat_map(|mark| mark.to_le_bytes()).collect();
        let (written, after) = list.split_at(marks.len());
        assert_eq!(written, marks);
        assert!(after.iter().all(|&byte| byte == 0xCC));
        let free = if number == 0 { PATH_BYTES } else { 0 };
        assert!(path[free..].iter().all(|&byte| byte == 0xAA));
        assert_eq!(result[OPENINGS_BYTES..], [0xBB; 5]);
    });
    let refused = [1, 4, 5, 37, 38].map(|number| (number, false));
    assert!(
        seen.into_iter()
            .eq([(0, false), (0, true)].into_iter().chain(refused))
    );
}

#[test]
fn the_typed_function_answers_every_case() {
    for_each_case(|case| match check(case) {
        None => assert_eq!(case.number, 1),
        Some(check) => match check.openings(case.schema, case.rule) {
            Err(refusal) => assert_eq!(refusal.number(), case.number),
            Ok(set) => assert_eq!((set, 0), (case.set.clone(), case.number)),
        },
    });
}

/// Every mark that a schema can have.
fn all_marks() -> Vec<u32> {
    (0..=1_024).collect()
}

/// By checks alone: the set gives acceptance, and without one of its marks all others together do not.
#[test]
fn a_set_is_enough_and_every_mark_of_it_is_needed() {
    let (mut answered, mut needed) = (0, 0);
    for_each_case(|case| {
        let Some(check) = check(case).filter(|_| case.number == 0) else {
            return;
        };
        let accepts = |marks: &[u32]| {
            let wider = opened(case.schema, marks).expect("a schema");
            let checked = check.run(&wider, case.rule).expect("no refusal");
            checked.verdict.is_accepted()
        };
        assert_eq!(accepts(&all_marks()), case.set.is_some());
        answered += 1;
        let Some(set) = &case.set else { return };
        assert!(accepts(set));
        for mark in set {
            let others: Vec<u32> = all_marks().into_iter().filter(|one| one != mark).collect();
            assert!(!accepts(&others), "{mark}");
            needed += 1;
        }
    });
    assert_eq!((answered, needed), (1_138, 889));
}

#[test]
fn a_schema_that_is_opened_is_a_widening_with_nothing_to_open() {
    let mut sets = 0;
    for_each_case(|case| {
        let (Some(check), Some(set)) = (check(case), &case.set) else {
            return;
        };
        let wider = opened(case.schema, set).expect("a schema");
        assert_eq!(widens(case.schema, &wider), Ok(Widening::Marks));
        assert_eq!(check.openings(&wider, case.rule), Ok(Some(Vec::new())));
        sets += 1;
    });
    assert_eq!(sets, 931);
}

/// A schema with as many closed objects as it can have, and a template that needs every one of them, the record and the arguments open.
fn largest() -> (Vec<u8>, Vec<u8>) {
    let names: Vec<String> = (0..1_023).map(|number| format!("{number:04}")).collect();
    let fields = names.iter().map(|name| Field::new(name, FieldKind::Object));
    let schema = fields.fold(Schema::new().arguments(), Schema::field);
    // The marks that come first in the set are read last.
    let roots = ["$fields.q".to_owned(), "$args.q".to_owned()];
    let objects = names.iter().rev().map(|name| format!("$fields.{name}.q"));
    let values = objects.chain(roots).map(|read| Value::string(&read));
    let template = Template::new(Value::array(values));
    (
        schema.sheet().expect("a schema").into(),
        template.sheet().expect("a template").into(),
    )
}

#[test]
fn a_list_has_room_for_every_mark() {
    let (schema, template) = largest();
    let found = openings(Kind::Precondition, Semantics::Kernel1, &schema, &template);
    assert_eq!(found, Ok(Some(all_marks())));
    let wider = opened(&schema, &all_marks()).expect("a schema");
    let found = openings(Kind::Precondition, Semantics::Kernel1, &wider, &template);
    assert_eq!(found, Ok(Some(Vec::new())));
}

#[test]
fn refusals_come_in_their_order() {
    let (path, list, result) = (PATH_BYTES, OPENING_LIST_BYTES, OPENINGS_BYTES);
    let schema: &[u8] = b"H,0,0,-,0\n";
    let rule: &[u8] = b"R,-,-,\nC,1,1,\n";
    for (kind, table, sheets, lengths, expected) in [
        (9, &b"N"[..], [&b""[..], b""], [0, 0, 0], 1),
        (2, b"N", [b"", b""], [path - 1, 0, result], 3),
        (2, b"N", [b"", b""], [path, 0, result - 1], 3),
        (2, b"N", [b"", b""], [path, list - 1, result], 36),
        (2, b"N", [b"", b""], [path, list, result], 37),
        (2, b"", [b"", b""], [path, list, result], 4),
        (2, b"", [schema, b""], [path, list, result], 5),
        (2, b"", [schema, schema], [path, list, result], 5),
        (2, b"", [schema, rule], [path, list, result], 0),
        (2, b"", [schema, rule], [path, 0, result], 36),
    ] {
        let [mut path, mut list, mut result] = lengths.map(|length| vec![0xAA; length]);
        let [schema, rule] = sheets;
        let number = raw::openings(
            kind,
            2,
            table,
            schema,
            rule,
            &mut path,
            &mut list,
            &mut result,
        );
        assert_eq!(number, expected);
        assert!(list.iter().all(|&byte| byte == 0xAA));
        assert!(number == 0 || path.iter().all(|&byte| byte == 0xAA));
        let is_written = result.len() >= OPENINGS_BYTES;
        assert_eq!(is_written, raw::field(&result, 0) == number);
    }
}

/// Bytes such as sheets are made of, or a sheet with a byte changed.
fn damaged(random: &mut Random, sheet: &[u8]) -> Vec<u8> {
    let mut bytes = sheet.to_vec();
    if random.chance(3) {
        let at = random.below(bytes.len());
        bytes[at] = random.pick(b"HFRTCVK,,01-\n$ab.\xFF");
    }
    bytes
}

#[test]
fn any_input_has_an_answer() {
    let mut random = Random(0x5EED_0008);
    let rules: [&[u8]; 4] = [
        b"T\nV,5,12,$fields.o.qq\n",
        b"R,-,-,\nC,20,1,b\nV,5,9,$fields.a\nC,19,0,\nV,5,4,$b.q\n",
        b"R,-,-,\nC,2,2,\nC,5,0,\nV,5,9,$fields.q\nC,5,0,\nV,5,7,$args.q\n",
        b"R,-,-,\nC,5,0,\nV,5,5,$nope\n",
    ];
    let schema = b"H,0,2,0,0\nF,6,0,1,0,1,-,a\nF,7,0,0,0,0,-,\nF,7,0,0,0,1,-,o\n";
    let mut seen = BTreeSet::new();
    for _ in 0..3_000 {
        let schema = damaged(&mut random, schema);
        let rule = random.pick(&rules);
        let rule = damaged(&mut random, rule);
        let check = Check::new(random.pick(Kind::ALL), random.pick(Semantics::ALL), b"\xFF");
        match check.openings(&schema, &rule) {
            Ok(set) => {
                let marks = set.clone().unwrap_or_default();
                assert!(marks.iter().all(|mark| *mark <= 4));
                seen.insert(set);
            }
            Err(refusal) => assert!(matches!(refusal, Refusal::SchemaSheet | Refusal::RuleSheet)),
        }
    }
    let sets = [vec![], vec![0, 1], vec![3], vec![4]].map(Some);
    assert!(
        sets.iter().chain([&None]).all(|set| seen.contains(set)),
        "{seen:?}"
    );
}

/// The schema of docs/FORMAT.md, "A pair of sheets", and the rules of "The fewest marks to open".
#[test]
fn the_format_shows_the_sets() {
    let bar =
        Field::element(FieldKind::Object).property(Field::new("threaded", FieldKind::Boolean));
    let bars = Field::new("bars", FieldKind::Array).items(bar);
    let yarn = Field::new("yarn", FieldKind::Union).tag("kind");
    let schema = Schema::new().field(bars).field(yarn);
    let schema = schema.argument(Field::new("on", FieldKind::String));
    let schema = schema.sheet().expect("a schema");
    let set = |condition: Condition| {
        let rule = Rule::new(condition).sheet().expect("a rule");
        openings(Kind::Precondition, Semantics::Service1, &schema, &rule).expect("an answer")
    };
    let of_bars = |body| Condition::for_all("bar", "$fields.bars", body);
    let (dye, by) = (
        Condition::exists("$fields.dye"),
        Condition::exists("$args.by"),
    );
    let tension = of_bars(Condition::exists("$bar.tension"));
    assert_eq!(set(dye.clone()), Some(vec![1]));
    assert_eq!(set(by.clone()), Some(vec![0]));
    assert_eq!(set(tension.clone()), Some(vec![3]));
    assert_eq!(
        set(Condition::all([dye.clone(), by, tension])),
        Some(vec![0, 1, 3])
    );
    let width = Condition::exists("$loom.width.unit");
    assert_eq!(
        set(Condition::for_all("loom", "$fields.looms", width)),
        Some(vec![1])
    );
    let rows = Condition::for_any("row", "xbar.rows", Condition::exists("$row.q"));
    assert_eq!(set(of_bars(rows)), Some(vec![3]));
    assert_eq!(set(Condition::exists("$fields.bars")), Some(vec![]));
    let shade = Condition::exists("$fields.yarn.shade");
    assert_eq!(set(Condition::all([dye, shade])), None);
}
