//! Definitions of entity-runtime: their shape, their places, and what comes of them.

use entity_rules::{
    Definition, Form, Kind, Rule, Scope, Semantics, Template, Value, Verdict, Widening, widens,
};

const AROUND: &str = r#""entity":"e","schema":{},"lifecycle":{"initial":"s","states":["s"]}"#;

/// A definition with these members beside the least that one has.
fn with(members: &str) -> String {
    format!("{{{AROUND},{members}}}")
}

fn read(text: &str) -> Definition {
    Definition::read(text).unwrap_or_else(|error| panic!("{text}: {error}"))
}

/// Number, detail and path of every defect.
fn defects(text: &str) -> Vec<(u32, u32, String)> {
    let definition = read(text);
    let places = definition.places().iter();
    let verdicts = places.map(|place| definition.check(place).expect("no limit"));
    verdicts
        .filter_map(|verdict| {
            let defect = verdict.defect()?;
            let numbers = (defect.number.number(), defect.detail.number());
            Some((numbers.0, numbers.1, defect.path.clone()))
        })
        .collect()
}

/// The labels of its places.
fn labels(text: &str) -> Vec<String> {
    let definition = read(text);
    let places = definition.places().iter();
    places.map(|place| place.label.clone()).collect()
}

fn reason(text: &str) -> String {
    match Definition::read(text) {
        Ok(_) => panic!("{text} is read"),
        Err(error) => error.to_string(),
    }
}

fn one(number: u32, detail: u32, path: &str) -> Vec<(u32, u32, String)> {
    vec![(number, detail, path.to_owned())]
}

#[test]
fn arguments_are_there_even_where_the_file_has_none() {
    let payload = r#""type":"M","payload":"$args.x""#;
    let operation = with(&format!(
        r#""operations":{{"o":{{"emits":[{{{payload}}}]}}}}"#
    ));
    assert_eq!(
        defects(&operation),
        one(18, 2, "operations.o.emits[0].payload")
    );
    let create = with(&format!(r#""create":{{"emit":{{{payload}}}}}"#));
    assert_eq!(defects(&create), one(18, 11, "create.emit.payload"));
}

#[test]
fn outcomes_of_operations_are_checked_under_kernel_1_as_well() {
    let outcome = r#"{"name":"n","when":{"truthy":1}}"#;
    let text = with(&format!(
        r#""operations":{{"o":{{"outcomes":[{outcome}]}}}}"#
    ));
    assert_eq!(defects(&text), one(15, 0, "operations.o.outcomes.n.when"));
    let create = format!(r#""create":{{"outcomes":[{outcome}]}}"#);
    assert_eq!(labels(&with(&create)), Vec::<String>::new());
    let service = with(&format!(r#"{create},"semantics":"service/2""#));
    assert_eq!(labels(&service), ["create.outcomes.n.when"]);
    assert_eq!(defects(&service), []);
}

#[test]
fn an_amount_is_checked_where_its_target_can_be_added_to() {
    let text = |field: &str, amount: &str| {
        format!(
            r#"{{"entity":"e","lifecycle":{{"initial":"s","states":["s"]}},"schema":{{"fields":{{"i":{{{field}}}}}}},
                "operations":{{"o":{{"set":{{"i":{{"increment":{amount}}}}}}}}}}}"#
        )
    };
    for kind in ["integer", "number"] {
        let field = format!(r#""type":"{kind}","required":true"#);
        let defect = one(18, 12, "operations.o.set.i.increment");
        assert_eq!(defects(&text(&field, r#""$x""#)), defect);
        for amount in [r#""$$x""#, "1", "null", r#"["$x"]"#] {
            assert_eq!(labels(&text(&field, amount)), Vec::<String>::new());
        }
    }
    for field in [
        r#""type":"integer""#,
        r#""type":"integer","required":false"#,
        r#""type":"binary64","required":true"#,
    ] {
        assert_eq!(labels(&text(field, r#""$x""#)), Vec::<String>::new());
    }
}

#[test]
fn only_some_values_of_set_are_templates() {
    let set = r#""set":{"t":{"increment":1,"more":"$x"},"e":{},"b":{"increment":"$x","cleared":true},"c":{"cleared":"$x"},"n":null}"#;
    let text = with(&format!(r#""operations":{{"o":{{{set}}}}}"#));
    let expected = ["e", "n", "t"].map(|name| format!("operations.o.set.{name}"));
    assert_eq!(labels(&text), expected);
    assert_eq!(defects(&text), one(18, 12, "operations.o.set.t.more"));
}

#[test]
fn keys_are_read_by_a_projection() {
    let text = |key: &str| {
        format!(
            r#"{{"entity":"e","lifecycle":{{"initial":"s","states":["s"]}},"semantics":"service/1",
                "schema":{{"fields":{{"t":{{"type":"string"}},"a":{{"type":"array","items":{{"type":"string"}}}}}}}},"projections":{{"p":{{"key":{key:?}}}}}}}"#
        )
    };
    let counts = |counted: &str| {
        format!(
            "'{counted}' reads the length of a text, and a projection key reads object members only, so the read model would file no instance under it"
        )
    };
    let allowed = "is not a reference available here; an entity invariant may read $id, $entity, $version, $state, $fields, $fields.<path>";
    let told = |key: &str| {
        let definition = read(&text(key));
        let verdict = definition.check(&definition.places()[0]).expect("no limit");
        verdict.defect().map(|defect| {
            assert_eq!((defect.family.number(), defect.passed), (2, 0));
            assert_eq!((defect.path.as_str(), defect.place), ("projections.p", 2));
            (defect.detail.number(), defect.message.clone())
        })
    };
    for key in [
        "",
        "anything",
        "$state",
        "$fields",
        "$fields.t",
        "$fields.a.count",
        "$fields.a.0",
    ] {
        assert_eq!(told(key), None, "{key}");
    }
    assert_eq!(told(&"k".repeat(2_000)), None);
    for (key, detail, message) in [
        (
            "$fields.t.count",
            13,
            format!("'$fields.t.count' cannot resolve: {}", counts("t.count")),
        ),
        (
            "$fields.t.count.x",
            13,
            format!("'$fields.t.count.x' cannot resolve: {}", counts("t.count")),
        ),
        (
            "$fields.a.0.count",
            13,
            format!(
                "'$fields.a.0.count' cannot resolve: {}",
                counts("a.0.count")
            ),
        ),
        (
            "$fields.u",
            2,
            "'$fields.u' cannot resolve: unknown field 'u'".to_owned(),
        ),
    ] {
        assert_eq!(
            told(key),
            Some((detail, format!("`key`: {message}"))),
            "{key}"
        );
    }
    for key in ["$$x", "$x", "$", "$$", "$$fields.t"] {
        assert_eq!(told(key), Some((12, format!("`key`: '{key}' {allowed}"))));
    }
}

#[test]
fn an_escaped_key_is_refused_and_an_escaped_text_is_not() {
    let text =
        with(r#""projections":{"p":{"key":"$$x"}},"create":{"emit":{"type":"M","payload":"$$x"}}"#);
    assert_eq!(defects(&text), one(18, 12, "projections.p"));
}

#[test]
fn a_condition_has_no_name_no_message_and_no_assert() {
    let outcome = r#"{"name":"n","when":{"all":[]}}"#;
    let text = with(&format!(
        r#""operations":{{"o":{{"outcomes":[{outcome}]}}}}"#
    ));
    assert_eq!(defects(&text), one(16, 0, "operations.o.outcomes.n.when"));
    let passed = |members: &str| {
        let definition = read(&with(members));
        definition
            .check(&definition.places()[0])
            .map(|verdict| verdict.passed())
    };
    let condition = r#"{"eq":["$id",1]}"#;
    let when =
        format!(r#""operations":{{"o":{{"outcomes":[{{"name":"n","when":{condition}}}]}}}}"#);
    let rule = format!(r#""invariants":[{{"assert":{condition}}}]"#);
    assert_eq!(passed(&when).map(|passed| passed + 2), passed(&rule));
}

#[test]
fn a_state_that_there_is_not_is_no_defect_of_ours() {
    let text = with(r#""projections":{"p":{"key":"$x","in_state":"z"}}"#);
    assert_eq!(defects(&text), one(18, 12, "projections.p"));
}

/// Every kind of place, named so that the file's order is not that of the places.
const EVERY_PLACE: &str = r#"{
  "semantics": "service/1", "entity": "e", "lifecycle": {"initial": "s", "states": ["s"]},
  "schema": {"fields": {"i": {"type": "integer", "required": true}}},
  "projections": {"q": {"key": "$id"}, "p": {"key": "$state"}},
  "operations": {
    "z": {"emit": [{"type": "A"}, {"type": " "}, {"type": "B", "payload": null}]},
    "a": {
      "outcomes": [
        {"name": "n", "responds": {"y": 1, "x": 2}, "emits": [{"type": "C"}], "set": {"i": {"increment": "$id"}, "b": 1}, "when": true},
        {"name": "n", "when": null, "refuses": {"error": "E"}, "effect": "none", "set": {"c": "x"}}
      ],
      "emits": [{"type": "D"}], "set": {"i": {"increment": "$id"}, "c": 1}, "preconditions": [{"assert": true}]
    }
  },
  "create": {
    "outcomes": [{"name": "m", "when": true, "set": {"i": 1}, "emits": [{"type": "E"}], "responds": {"x": 1}, "effect": "creates"}],
    "emit": {"type": "F"}
  },
  "invariants": [{"assert": true}, {"assert": false}]
}"#;

#[test]
fn every_place_has_its_kind_and_its_order() {
    use Kind::*;
    let definition = read(EVERY_PLACE);
    let a = "operations.a";
    let n = "operations.a.outcomes.n";
    let places = definition.places().iter();
    let found: Vec<_> = places
        .map(|place| (place.label.as_str(), place.form, place.kind, &place.scope))
        .collect();
    let (record, create) = (&Scope::Record, &Scope::Create);
    let (of_a, of_z) = (&Scope::Operation("a".into()), &Scope::Operation("z".into()));
    let under = |holder: &str, end: &str| format!("{holder}.{end}");
    let expected = [
        ("invariants[0]".to_owned(), Form::Rule, Invariant, record),
        ("invariants[1]".to_owned(), Form::Rule, Invariant, record),
        ("projections.p".to_owned(), Form::Key, Invariant, record),
        ("projections.q".to_owned(), Form::Key, Invariant, record),
        (
            "create.emit.payload".to_owned(),
            Form::Template,
            CreateTemplate,
            record,
        ),
        (
            "create.outcomes.m.when".to_owned(),
            Form::Condition,
            CreateSelector,
            create,
        ),
        (
            "create.outcomes.m.set.i".to_owned(),
            Form::Template,
            CreateSet,
            create,
        ),
        (
            "create.outcomes.m.emits[0].payload".to_owned(),
            Form::Template,
            CreateOutcomeTemplate,
            create,
        ),
        (
            "create.outcomes.m.responds.x".to_owned(),
            Form::Template,
            CreateOutcomeTemplate,
            create,
        ),
        (under(a, "preconditions[0]"), Form::Rule, Precondition, of_a),
        (under(a, "set.c"), Form::Template, OperationTemplate, of_a),
        (
            under(a, "set.i.increment"),
            Form::Template,
            OperationTemplate,
            of_a,
        ),
        (
            under(a, "emits[0].payload"),
            Form::Template,
            OperationTemplate,
            of_a,
        ),
        (under(n, "when"), Form::Condition, OutcomeSelector, of_a),
        (under(n, "set.b"), Form::Template, OperationTemplate, of_a),
        (
            under(n, "set.i.increment"),
            Form::Template,
            OperationTemplate,
            of_a,
        ),
        (
            under(n, "emits[0].payload"),
            Form::Template,
            OperationTemplate,
            of_a,
        ),
        (
            under(n, "responds.x"),
            Form::Template,
            OperationTemplate,
            of_a,
        ),
        (
            under(n, "responds.y"),
            Form::Template,
            OperationTemplate,
            of_a,
        ),
        (under(n, "set.c"), Form::Template, OperationTemplate, of_a),
        (
            "operations.z.emits[0].payload".to_owned(),
            Form::Template,
            OperationTemplate,
            of_z,
        ),
        (
            "operations.z.emits[2].payload".to_owned(),
            Form::Template,
            OperationTemplate,
            of_z,
        ),
    ];
    assert_eq!(found.len(), expected.len());
    for (found, (label, form, kind, scope)) in found.into_iter().zip(&expected) {
        assert_eq!(found, (label.as_str(), *form, *kind, *scope));
    }
}

#[test]
fn pointers_and_spans_lead_into_the_file() {
    let definition = read(EVERY_PLACE);
    let said = |label: &str| {
        let place = definition
            .places()
            .iter()
            .find(|place| place.label == label);
        let place = place.expect("a place");
        (place.pointer.as_str(), &EVERY_PLACE[place.span.clone()])
    };
    assert_eq!(
        said("operations.a.set.i.increment"),
        ("/operations/a/set/i/increment", "\"$id\"")
    );
    assert_eq!(
        said("operations.z.emits[2].payload"),
        ("/operations/z/emit/2/payload", "null")
    );
    assert_eq!(
        said("create.emit.payload"),
        ("/create/emit", r#"{"type": "F"}"#)
    );
    assert_eq!(said("projections.q"), ("/projections/q/key", "\"$id\""));
    assert_eq!(
        said("operations.a.outcomes.n.when"),
        ("/operations/a/outcomes/0/when", "true")
    );
}

#[test]
fn sheets_are_those_of_the_builders() {
    let text = with(
        r#""invariants":[{"name":"n","message":"m","assert":{"compare":{"left":"$id","op":"lt","right":-1.50e2}}}],
           "create":{"emit":{"type":"M","payload":{"b":[1E5,"\u00e9"],"a":null}}},
           "operations":{"o":{"outcomes":[{"name":"n","when":{"not":true}}]}}"#,
    );
    use entity_rules::{CompareOp, Condition};
    let rule = Rule::new(Condition::compare(
        "$id",
        CompareOp::Lt,
        Value::number("-1.50e2"),
    ));
    let value = Value::object([
        (
            "b",
            Value::array([Value::number("1E5"), Value::string("é")]),
        ),
        ("a", Value::null()),
    ]);
    let condition = Rule::new(Condition::not(Condition::literal(true)));
    let expected = [
        rule.name("n").message("m").sheet(),
        Template::new(value).sheet(),
        condition.sheet(),
    ];
    let definition = read(&text);
    let sheets = definition
        .places()
        .iter()
        .map(|place| place.sheet.clone().expect("no limit"));
    assert_eq!(
        sheets.collect::<Vec<_>>(),
        expected.map(|sheet| sheet.expect("a sheet"))
    );
}

#[test]
fn schemas_are_those_of_the_builders_and_widen_themselves() {
    let fields = r#"{"u":{"type":"union","tag":"sort","variants":{"v":{"type":"string"}}},"m":{"type":"map","key":"uuid","items":{"type":"object","additional_properties":true}},
        "o":{"type":"object","properties":{"b":{"type":"binary64"},"a":{"type":"ref","entity":"x"}}}}"#;
    let text = format!(
        r#"{{"entity":"e","version":7,"semantics":"service/3","lifecycle":{{"initial":"s","states":[]}},"schema":{{"additional_fields":true,"fields":{fields}}},
            "create":{{"arguments":{{"fields":{{"x":{{"type":"json"}}}}}}}},"operations":{{"o":{{"arguments":{{"additional_fields":true}}}},"p":{{}}}}}}"#
    );
    let definition = read(&text);
    assert_eq!((definition.entity(), definition.version()), ("e", 7));
    assert_eq!(definition.semantics(), Semantics::Service3);
    assert_eq!(definition.operations().collect::<Vec<_>>(), ["o", "p"]);
    let record = "F,10,0,1,0,1,-,m\nF,7,1,0,0,0,-,\nF,7,0,0,2,1,-,o\nF,9,0,0,0,1,-,a\nF,12,0,0,0,1,-,b\nF,11,0,0,0,1,4,usort\n";
    let operation = |name: &str| Scope::Operation(name.to_owned());
    for (scope, head, arguments) in [
        (Scope::Record, "H,1,3,-,0", ""),
        (Scope::Create, "H,1,3,0,1", "F,8,0,0,0,1,-,x\n"),
        (operation("o"), "H,1,3,1,0", ""),
        (operation("p"), "H,1,3,0,0", ""),
    ] {
        let sheet = definition
            .schema(&scope)
            .expect("a schema")
            .expect("no limit");
        assert_eq!(*sheet, format!("{head}\n{record}{arguments}").as_bytes());
        assert_eq!(widens(sheet, sheet), Ok(Widening::Marks));
    }
}

#[test]
fn shapes_that_are_nearly_right_are_refused() {
    for (members, told) in [
        (
            r#""invariant":[]"#,
            "a definition has no member \"invariant\"; did you mean `invariants`?",
        ),
        (r#""invariants":null"#, "expected an array, not null"),
        (
            r#""invariants":[{"assert":true,"asert":1}]"#,
            "a rule has no member \"asert\"; did you mean `assert`?",
        ),
        (
            r#""invariants":[{"assert":{"exits":1}}]"#,
            "there is no operator `exits`; did you mean `exists`?",
        ),
        (r#""create":null"#, "`create` is an object, not null"),
        (r#""create":[]"#, "`create` is an object, not an array"),
        (
            r#""create":{"emits":[]}"#,
            "`create` has no member \"emits\"; did you mean `emit`?",
        ),
        (
            r#""create":{"emit":{"type":"M","payloads":1}}"#,
            "an event has no member \"payloads\"; did you mean `payload`?",
        ),
        (
            r#""create":{"emit":{"payload":1}}"#,
            "an event has the member `type`, and this one has none",
        ),
        (
            r#""operations":{"o":{"emit":[],"emits":[]}}"#,
            "`emit` is another name of `emits`; expected one of them",
        ),
        (
            r#""operations":{"o":{"emits":{"type":"M"}}}"#,
            "expected an array, not an object",
        ),
        (
            r#""operations":{"o":{"outcomes":[{"name":"n","emit":[]}]}}"#,
            "an outcome has no member \"emit\"; did you mean `emits`?",
        ),
        (
            r#""operations":{"o":{"outcomes":[{"name":"n","effect":{"none":null}}]}}"#,
            "expected `none`, `creates` and `updates` or an object with `moves` alone",
        ),
        (
            r#""operations":{"o":{"outcomes":[{"name":"n","effect":"moves"}]}}"#,
            "expected one of `none`, `creates` and `updates`, not \"moves\"",
        ),
        (
            r#""operations":{"o":{"outcomes":[{"name":"n","effect":{"moves":{"to":"s"}}}]}}"#,
            "`moves` has the member `from`, and this one has none",
        ),
        (
            r#""operations":{"o":{"outcomes":[{"name":"n","wrong_state":null}]}}"#,
            "expected `true` or `false`, not null",
        ),
        (
            r#""operations":{"o":{"transitions":[{"from":1,"to":"s"}]}}"#,
            "expected a string or an array of strings, not a number",
        ),
        (
            r#""operations":{"o":{"set":null}}"#,
            "expected an object, not null",
        ),
        (
            r#""operations":{"o":{},"o":{}}"#,
            "the name \"o\" comes again in this object, first on line 1",
        ),
        (
            r#""projections":{"p":{}}"#,
            "a projection has the member `key`, and this one has none",
        ),
        (
            r#""projections":{"p":{"key":null}}"#,
            "expected a string, not null",
        ),
        (
            r#""semantics":"service/4""#,
            "expected one of `kernel/1`, `service/1`, `service/2` and `service/3`, not \"service/4\"; did you mean `service/1`?",
        ),
        (
            r#""semantics":{"service/1":null}"#,
            "expected one of `kernel/1`, `service/1`, `service/2` and `service/3`, not an object",
        ),
        (
            r#""version":1.0"#,
            "expected a whole number from 0 to 4294967295, not 1.0",
        ),
        (
            r#""version":4294967296"#,
            "expected a whole number from 0 to 4294967295, not 4294967296",
        ),
        (
            r#""version":-0"#,
            "expected a whole number from 0 to 4294967295, not -0",
        ),
        (r#""version":null"#, "expected a whole number, not null"),
        (
            r#""number_observation":"source-number/2""#,
            "expected one of `source-number/1`, not \"source-number/2\"; did you mean `source-number/1`?",
        ),
    ] {
        let text = with(members);
        let reason = reason(&text);
        let (_, found) = reason.split_once(": ").expect("a place");
        assert_eq!(found, told, "{members}");
    }
    for (field, told) in [
        (
            r#"{}"#,
            "a field has the member `type`, and this one has none",
        ),
        (r#"{"type":"strin"}"#, "did you mean `string`?"),
        (r#"{"type":{"string":null}}"#, "not an object"),
        (
            r#"{"type":"string","requried":true}"#,
            "a field has no member \"requried\"; did you mean `required`?",
        ),
        (
            r#"{"type":"string","required":null}"#,
            "expected `true` or `false`, not null",
        ),
        (
            r#"{"type":"string","min_length":-1}"#,
            "expected a whole number from 0 to 18446744073709551615, not -1",
        ),
        (
            r#"{"type":"array","items":{"type":"map","items":{"typ":"map"}}}"#,
            "a field has no member \"typ\"; did you mean `type`?",
        ),
        (
            r#"{"type":"union","variants":{"v":{"type":"object","properties":[]}}}"#,
            "expected an object, not an array",
        ),
        (
            r#"{"type":"string","default":{"a":1,"a":2}}"#,
            "the name \"a\" comes again",
        ),
    ] {
        let text = format!(
            r#"{{"entity":"e","schema":{{"fields":{{"f":{field}}}}},"lifecycle":{{"initial":"s","states":["s"]}}}}"#
        );
        let reason = reason(&text);
        assert!(reason.contains(told), "{field}: {reason}");
    }
    for text in ["", "null", "[]", "{}", r#"{"entity":"e"} x"#, "\u{FEFF}{}"] {
        reason(text);
    }
}

#[test]
fn what_entity_runtime_takes_is_read() {
    for members in [
        r#""identity":null"#,
        r#""identity":{"field":"f"},"relations":{"r":{"kind":"owns","target":"t","cardinality":"many","via":"v"}},"scales":{"s":["a","b"]}"#,
        r#""number_observation":"source-number/1""#,
        r#""create":{"emit":null,"arguments":{},"response":{},"outcomes":[]}"#,
        r#""create":{"emit":{"type":"M","payload":null,"payload_if_present":{"a":{"argument":"a"}}}}"#,
        r#""operations":{"":{"transitions":[{"from":"s","to":"s"},{"from":[],"to":"s"}]}}"#,
        r#""operations":{"o":{"outcomes":[{"name":"","in_state":null,"when":null,"refuses":null,"fulfills":{"f":{"actions":"optional"}},"set_if_present":{"a":{"argument":""}},"effect":{"moves":{"to":"s","from":["s"]}}}]}}"#,
        r#""operations":{"o":{"outcomes":[{"name":"n","refuses":{"error":"e","message":null},"wrong_state":true,"responds_if_present":{}}]}}"#,
        r#""invariants":[{"name":null,"message":null,"assert":true}]"#,
        r#""version":0"#,
    ] {
        read(&with(members));
    }
    let field = r#"{"type":"string","required":false,"default":null,"min_length":null,"max_length":18446744073709551615,"alphabet":null,"min":-1e9999,"max":null,
        "values":[],"items":null,"properties":{},"additional_properties":false,"entity":null,"inverse":null,"acyclic":null,"key":null,"tag":null,"variants":{}}"#;
    read(&format!(
        r#"{{"entity":"","schema":{{"fields":{{"f":{field}}}}},"lifecycle":{{"initial":"","states":[]}}}}"#
    ));
}

#[test]
fn limits_are_said_as_limits() {
    let long = "l".repeat(513);
    let text = with(&format!(
        r#""invariants":[{{"assert":{{"exists":"{long}"}}}},{{"assert":true}}],"projections":{{"p":{{"key":"${long}"}}}}"#
    ));
    let definition = read(&text);
    let fault = |index: usize| {
        definition
            .check(&definition.places()[index])
            .map_err(|fault| fault.reason)
    };
    assert_eq!(
        fault(0),
        Err("this text has 513 bytes, and 512 are the most that one may have".to_owned())
    );
    assert_eq!(fault(1), Ok(Verdict::Accepted { passed: 4 }));
    assert!(fault(2).is_err_and(|reason| reason.contains("514 bytes")));

    let wide: Vec<String> = (0..1_024)
        .map(|index| format!(r#""f{index}":{{"type":"json"}}"#))
        .collect();
    let text = format!(
        r#"{{"entity":"e","schema":{{"fields":{{{}}}}},"lifecycle":{{"initial":"s","states":["s"]}},"invariants":[{{"assert":true}}]}}"#,
        wide.join(",")
    );
    let definition = read(&text);
    let told = definition
        .check(&definition.places()[0])
        .map_err(|fault| fault.reason);
    assert!(told.is_err_and(|reason| reason.starts_with("the schema cannot be a sheet: with the entry")));

    let deep = format!(
        "{}{{\"type\":\"json\"}}{}",
        r#"{"type":"array","items":"#.repeat(1_000),
        "}".repeat(1_000)
    );
    let text = format!(
        r#"{{"entity":"e","schema":{{"fields":{{"f":{deep}}}}},"lifecycle":{{"initial":"s","states":["s"]}},"invariants":[{{"assert":true}}]}}"#
    );
    let definition = read(&text);
    let told = definition
        .check(&definition.places()[0])
        .map_err(|fault| fault.reason);
    assert!(told.is_err_and(|reason| reason.contains("fields nest deeper than 64")));
}

#[test]
fn no_label_is_too_long() {
    let name = "o".repeat(2_000);
    let text = with(&format!(
        r#""operations":{{"{name}":{{"set":{{"f":"$x"}}}}}}"#
    ));
    assert_eq!(
        defects(&text),
        one(18, 12, &format!("operations.{name}.set.f"))
    );
}

/// The mill's own definition and its next version.
#[test]
fn the_mills_definition_is_accepted_and_widens() {
    let text = |name: &str| {
        let folder = std::path::Path::new(env!("CARGO_MANIFEST_DIR")).join("examples/mill");
        std::fs::read_to_string(folder.join(name)).expect("a definition")
    };
    let (old, new) = (
        read(&text("pattern.json")),
        read(&text("pattern-wide.json")),
    );
    for definition in [&old, &new] {
        for place in definition.places() {
            let verdict = definition.check(place).expect("no limit");
            assert!(verdict.is_accepted(), "{}: {verdict}", place.label);
        }
    }
    let scopes = old
        .operations()
        .map(|name| Scope::Operation(name.to_owned()));
    for scope in scopes.chain([Scope::Record, Scope::Create]) {
        let sheet = |definition: &Definition| {
            let sheet = definition.schema(&scope).expect("a schema");
            sheet.expect("no limit").clone()
        };
        let widening = widens(&sheet(&old), &sheet(&new)).expect("two sheets");
        assert!(widening.breach().is_none(), "{scope}");
    }
    let rules = |definition: &Definition| {
        let places = definition.places().iter();
        places.filter(|place| place.form == Form::Rule).count()
    };
    assert_eq!((rules(&old), rules(&new)), (25, 26));
}
