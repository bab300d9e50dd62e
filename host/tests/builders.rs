//! The limits of sheets: what builders write below them is accepted, what passes one is an error.

mod support;

use entity_rules::limits::{
    MAX_CONDITION_NESTING, MAX_FIELD_NESTING, MAX_RULE_ENTRIES, MAX_SCHEMA_ENTRIES, MAX_TEXT_BYTES,
    MAX_VALUE_NESTING,
};
use entity_rules::{
    BuildError, Condition, Field, FieldKind, Nesting, Rule, Schema, SchemaSheet, Template, Value,
};
use support::{takes_rule, takes_schema};

fn texts(bytes: usize) -> String {
    "t".repeat(bytes)
}

/// The error for a text of 513 bytes.
fn too_long(what: &'static str) -> BuildError {
    BuildError::TextTooLong {
        what,
        start: format!("{}…", texts(40)),
        bytes: MAX_TEXT_BYTES + 1,
    }
}

#[test]
fn texts_have_at_most_512_bytes() {
    let schema = |field: Field| Schema::new().field(field).sheet().map(Vec::from);
    let rule = |rule: Rule| rule.sheet().map(Vec::from);
    let always = || Condition::literal(true);
    for bytes in [MAX_TEXT_BYTES - 1, MAX_TEXT_BYTES, MAX_TEXT_BYTES + 1] {
        let text = texts(bytes);
        let written = [
            ("name", schema(Field::new(&text, FieldKind::Json))),
            ("tag", schema(Field::new("", FieldKind::Union).tag(&text))),
            (
                "name",
                schema(
                    Field::new("a", FieldKind::Object).property(Field::new(&text, FieldKind::Json)),
                ),
            ),
            ("name", rule(Rule::new(always()).name(&text))),
            ("message", rule(Rule::new(always()).message(&text))),
            (
                "bind",
                rule(Rule::new(Condition::for_all(&text, "$fields.a", always()))),
            ),
            ("string", rule(Rule::new(Condition::exists(text.as_str())))),
            (
                "key",
                Template::new(Value::object([(&text, 1)]))
                    .sheet()
                    .map(Vec::from),
            ),
        ];
        for (what, sheet) in written {
            match bytes <= MAX_TEXT_BYTES {
                true => {
                    assert!(sheet.is_ok_and(|sheet| takes_schema(&sheet) || takes_rule(&sheet)))
                }
                false => assert_eq!(sheet, Err(too_long(what))),
            }
        }
    }
    let number = |bytes| Template::new(Value::number(&"1".repeat(bytes))).sheet();
    assert!(number(MAX_TEXT_BYTES).is_ok());
    assert!(matches!(
        number(MAX_TEXT_BYTES + 1),
        Err(BuildError::TextTooLong { what: "number", .. })
    ));
}

fn nested_field(depth: usize) -> Field {
    (1..depth).fold(Field::element(FieldKind::Array), |field, level| {
        match level % 2 {
            0 => Field::element(FieldKind::Array).items(field),
            _ => Field::element(FieldKind::Object).property(field),
        }
    })
}

fn nested_value(depth: usize) -> Value {
    (1..depth).fold(Value::null(), |value, level| match level % 2 {
        0 => Value::array([value]),
        _ => Value::object([("k", value)]),
    })
}

fn nested_condition(depth: usize) -> Condition {
    (1..depth).fold(
        Condition::exists(nested_value(MAX_VALUE_NESTING)),
        |condition, level| match level % 3 {
            0 => Condition::not(condition),
            1 => Condition::all([Condition::literal(true), condition]),
            _ => Condition::for_any("b", nested_value(2), condition),
        },
    )
}

/// What nests too deep, if something does.
fn too_deep(built: Result<impl Into<Vec<u8>>, BuildError>) -> Result<Vec<u8>, Nesting> {
    built.map(Into::into).map_err(|error| match error {
        BuildError::TooDeep { nesting, .. } => nesting,
        other => panic!("{other}"),
    })
}

#[test]
fn nesting_has_limits() {
    let fields = |depth| too_deep(Schema::new().field(nested_field(depth)).sheet());
    assert!(fields(MAX_FIELD_NESTING).is_ok_and(|sheet| takes_schema(&sheet)));
    assert_eq!(fields(MAX_FIELD_NESTING + 1), Err(Nesting::Fields));

    let conditions = |depth| too_deep(Rule::new(nested_condition(depth)).sheet());
    assert!(conditions(MAX_CONDITION_NESTING).is_ok_and(|sheet| takes_rule(&sheet)));
    assert_eq!(
        conditions(MAX_CONDITION_NESTING + 1),
        Err(Nesting::Conditions)
    );

    let values = |depth| too_deep(Template::new(nested_value(depth)).sheet());
    assert!(values(MAX_VALUE_NESTING).is_ok_and(|sheet| takes_rule(&sheet)));
    assert_eq!(values(MAX_VALUE_NESTING + 1), Err(Nesting::Values));
}

#[test]
fn the_deepest_of_several_counts() {
    let conditions = Condition::all([
        nested_condition(MAX_CONDITION_NESTING),
        Condition::literal(true),
    ]);
    assert_eq!(
        too_deep(Rule::new(conditions).sheet()),
        Err(Nesting::Conditions)
    );

    let values = Value::array([nested_value(MAX_VALUE_NESTING), Value::null()]);
    assert_eq!(
        too_deep(Template::new(values).sheet()),
        Err(Nesting::Values)
    );

    let fields = nested_field(1)
        .property(nested_field(MAX_FIELD_NESTING))
        .property(Field::new("z", FieldKind::Json));
    assert_eq!(
        too_deep(Schema::new().field(fields).sheet()),
        Err(Nesting::Fields)
    );
}

#[test]
fn the_deepest_towers_cost_no_stack() {
    let deep = 200_000;
    assert!(Rule::new(nested_condition(deep)).sheet().is_err());
    assert!(Template::new(nested_value(deep)).sheet().is_err());
    assert!(Schema::new().field(nested_field(deep)).sheet().is_err());
}

#[test]
fn rules_have_at_most_2048_entries() {
    let too_many = |entry: &str| {
        Err(BuildError::TooManyEntries {
            entry: entry.to_owned(),
            limit: MAX_RULE_ENTRIES,
        })
    };
    let nulls = |count| Template::new(Value::array((0..count).map(|_| Value::null()))).sheet();
    assert!(nulls(2_046).is_ok_and(|sheet| takes_rule(&sheet)));
    assert_eq!(nulls(2_047), too_many("V,6,2047,"));

    let children = |count| {
        Rule::new(Condition::any(
            (0..count).map(|_| Condition::literal(false)),
        ))
        .sheet()
    };
    assert!(children(2_046).is_ok_and(|sheet| takes_rule(&sheet)));
    assert_eq!(children(2_047), too_many("C,3,2047,"));
    assert_eq!(children(2_048), too_many("C,3,2048,"));

    let endless = Template::new(Value::array(std::iter::repeat_with(Value::null))).sheet();
    assert_eq!(endless, too_many("V,1,0,"));
}

/// Integers with the numbers as names.
fn numbered(numbers: std::ops::Range<usize>) -> impl Iterator<Item = Field> {
    numbers.map(|number| Field::new(format!("{number:04}"), FieldKind::Integer))
}

/// An object with so many properties.
fn object(name: &str, properties: usize) -> Field {
    numbered(0..properties).fold(Field::new(name, FieldKind::Object), Field::property)
}

#[test]
fn schemas_have_at_most_1024_entries() {
    let too_many = |entry: &str| {
        Err(BuildError::TooManyEntries {
            entry: entry.to_owned(),
            limit: MAX_SCHEMA_ENTRIES,
        })
    };
    let is_good =
        |sheet: Result<SchemaSheet, BuildError>| sheet.is_ok_and(|sheet| takes_schema(&sheet));

    let flat = |fields| {
        numbered(0..fields)
            .fold(Schema::new(), Schema::field)
            .sheet()
    };
    assert!(is_good(flat(1_023)));
    assert_eq!(flat(1_024), too_many("F,2,0,0,0,4,-,1023"));

    let arguments = |count| {
        let record = numbered(0..500).fold(Schema::new(), Schema::field);
        numbered(0..count).fold(record, Schema::argument).sheet()
    };
    assert!(is_good(arguments(523)));
    assert_eq!(arguments(524), too_many("F,2,0,0,0,4,-,0523"));

    // What passes the limit is the field whose properties do, and not one of them.
    let nested = |properties| Schema::new().field(object("o", properties)).sheet();
    assert!(is_good(nested(1_022)));
    assert_eq!(nested(1_023), too_many("F,7,0,0,1023,1,-,o"));
    assert_eq!(nested(1_024), too_many("F,7,0,0,1024,1,-,o"));

    let elements = |fields: usize| {
        let bars = (0..fields).map(|number| {
            Field::new(format!("{number:04}"), FieldKind::Array).items(FieldKind::Integer)
        });
        bars.fold(Schema::new().argument(object("o", 0)), Schema::field)
            .sheet()
    };
    assert!(is_good(elements(511)));
    assert_eq!(elements(512), too_many("F,6,0,1,0,4,-,0511"));
}

#[test]
fn sheets_have_at_most_30000_bytes() {
    // 57 strings of 512 bytes, and one that fills up: `T`, the array's entry, then the strings' entries of n + 9 bytes.
    let filled = |last: usize| {
        let strings = (0..57).map(|_| texts(MAX_TEXT_BYTES)).chain([texts(last)]);
        Template::new(Value::array(strings)).sheet()
    };
    let bytes = |last| filled(last).map(|sheet| sheet.len());
    let room = 30_000 - bytes(100).expect("a sheet with room left");
    assert_eq!(bytes(100 + room), Ok(30_000));
    assert!(filled(100 + room).is_ok_and(|sheet| takes_rule(&sheet)));
    let entry = "V,6,58,".to_owned();
    assert_eq!(bytes(101 + room), Err(BuildError::TooManyBytes { entry }));
}

#[test]
fn what_passes_a_limit_is_named() {
    let deep =
        Schema::new().field(Field::new("bars", FieldKind::Object).property(nested_field(64)));
    assert_eq!(
        deep.sheet().map_err(|error| error.to_string()),
        Err("fields nest deeper than 64, under the entry \"F,7,0,0,1,4,-,bars\"".to_owned())
    );
    let long = (0..60).fold(Schema::new(), |schema, i| {
        schema.field(Field::new(
            format!("{i:02}{}", "x".repeat(500)),
            FieldKind::Json,
        ))
    });
    assert_eq!(
        long.sheet().map_err(|error| error.to_string()),
        Err("with the entry \"F,8,0,0,0,502,-,57xxxxxxxxxxxxxxxxxxxxxx…\" the sheet has more than 30000 bytes".to_owned())
    );
}

#[test]
fn names_and_keys_stand_once() {
    let field = || Field::new("a", FieldKind::Json);
    let twice = Err(BuildError::NameTwice {
        name: "a".to_owned(),
    });
    assert_eq!(Schema::new().field(field()).field(field()).sheet(), twice);
    assert_eq!(
        Schema::new().argument(field()).argument(field()).sheet(),
        twice
    );
    let inside = Field::new("b", FieldKind::Object)
        .property(field())
        .property(field());
    assert_eq!(Schema::new().field(inside).sheet(), twice);
    let apart = Field::new("a", FieldKind::Object)
        .property(field())
        .property(Field::element(FieldKind::Json));
    let apart = apart.items(FieldKind::Json);
    assert!(
        Schema::new()
            .field(apart)
            .argument(field())
            .sheet()
            .is_ok_and(|sheet| takes_schema(&sheet))
    );

    let object = Value::object([("a", 1), ("b", 2), ("a", 3)]);
    let key_twice = Err(BuildError::KeyTwice {
        key: "a".to_owned(),
    });
    assert_eq!(Rule::new(Condition::truthy(object)).sheet(), key_twice);
}

#[test]
fn numbers_are_those_of_json() {
    let sheet = |number: &str| Template::new(Value::number(number)).sheet();
    for number in [
        "0",
        "-0",
        "10",
        "1.0",
        "0.00",
        "1e5",
        "1E+05",
        "-2.50e-0",
        "1e999999999999999999999",
    ] {
        assert!(
            sheet(number).is_ok_and(|sheet| takes_rule(&sheet)),
            "{number}"
        );
    }
    let others = [
        "", "-", "01", "-01", "+1", ".5", "1.", "1.e1", "1e", "1e+", "1 ", " 1", "0x1", "NaN",
        "1_0", "١",
    ];
    for number in others {
        assert_eq!(
            sheet(number),
            Err(BuildError::NotANumber {
                start: number.to_owned()
            })
        );
        let by_hand = format!("T\nV,4,{},{number}\n", number.len());
        assert!(!takes_rule(by_hand.as_bytes()), "{number}");
    }
}

#[test]
fn floating_point_numbers_are_finite() {
    for number in [
        0.0,
        -0.0,
        1.5,
        f64::MAX,
        f64::MIN_POSITIVE,
        5e-324,
        -1e21,
        123_456_789.125,
    ] {
        assert!(
            Template::new(number)
                .sheet()
                .is_ok_and(|sheet| takes_rule(&sheet)),
            "{number}"
        );
    }
    for number in [f64::INFINITY, f64::NEG_INFINITY, f64::NAN] {
        assert!(matches!(
            Template::new(number).sheet(),
            Err(BuildError::NotANumber { .. })
        ));
    }
}

#[test]
fn the_first_error_stays() {
    let bad = Value::number("one");
    let rule = Rule::new(Condition::all([Condition::not(Condition::eq(
        "$id",
        Value::array([bad]),
    ))]));
    assert_eq!(
        rule.sheet(),
        Err(BuildError::NotANumber {
            start: "one".to_owned()
        })
    );
}
