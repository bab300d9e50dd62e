//! Generated sheets: what builders write is well formed and reads back, and damaged sheets are told apart.

mod support;

use entity_rules::entries::{Content, Entry, read_rule, read_schema};
use entity_rules::{
    CompareOp, Condition, Field, FieldKind, Operator, Rule, Schema, Template, Value,
    rule_from_json, rule_to_json,
};
use std::collections::BTreeMap;
use support::{Random, takes_rule, takes_schema};

fn text(random: &mut Random) -> &'static str {
    const TEXTS: [&str; 12] = [
        "",
        "a",
        "b",
        "ab",
        "$fields.a",
        "$$",
        ",",
        "\n",
        "F,1,0\n",
        "é",
        "名前",
        "a.b\u{0}\u{10FFFF}",
    ];
    random.pick(&TEXTS)
}

fn number(random: &mut Random) -> &'static str {
    random.pick(&["0", "-0", "12.50", "1e400", "-3E-7", "99999999999999999999"])
}

type Contents = Vec<Content<'static>>;

/// A value, and the entries that it must become.
fn value(random: &mut Random, depth: usize) -> (Value, Contents) {
    match random.below(if depth > 4 { 5 } else { 7 }) {
        0 => (Value::null(), vec![Content::Null]),
        1 => (Value::bool(false), vec![Content::Bool(false)]),
        2 => (Value::from(true), vec![Content::Bool(true)]),
        3 => {
            let number = number(random);
            (Value::number(number), vec![Content::Number(number)])
        }
        4 => {
            let text = text(random);
            (Value::from(text), vec![Content::String(text)])
        }
        5 => {
            let elements: Vec<_> = (0..random.below(4))
                .map(|_| value(random, depth + 1))
                .collect();
            let (elements, contents): (Vec<_>, Vec<_>) = elements.into_iter().unzip();
            let head = vec![Content::Array(elements.len())];
            (
                Value::array(elements),
                [vec![head], contents].concat().concat(),
            )
        }
        _ => object(random, depth),
    }
}

fn object(random: &mut Random, depth: usize) -> (Value, Contents) {
    let mut members: Vec<(&str, Value)> = Vec::new();
    let mut contents = Vec::new();
    for _ in 0..random.below(4) {
        let (key, (value, inner)) = (text(random), value(random, depth + 1));
        if members.iter().all(|(other, _)| *other != key) {
            members.push((key, value));
            contents.push(Content::Key(key));
            contents.extend(inner);
        }
    }
    contents.insert(0, Content::Object(members.len()));
    (Value::object(members), contents)
}

type Pair = fn(Value, Value) -> Condition;

const PAIRS: [(Operator, Pair); 12] = [
    (Operator::Before, Condition::before),
    (Operator::After, Condition::after),
    (Operator::Eq, Condition::eq),
    (Operator::Ne, Condition::ne),
    (Operator::Gt, Condition::gt),
    (Operator::Gte, Condition::gte),
    (Operator::Lt, Condition::lt),
    (Operator::Lte, Condition::lte),
    (Operator::In, Condition::is_in),
    (Operator::Contains, Condition::contains),
    (Operator::StartsWith, Condition::starts_with),
    (Operator::EndsWith, Condition::ends_with),
];

/// A condition, and the entries that it must become.
fn condition(random: &mut Random, depth: usize) -> (Condition, Contents) {
    match random.below(if depth > 6 { 5 } else { 9 }) {
        0 => {
            let truth = random.chance(2);
            (Condition::literal(truth), vec![Content::Literal(truth)])
        }
        1 => over_value(random, Operator::Exists, Condition::exists),
        2 => over_value(random, Operator::Truthy, Condition::truthy),
        3 => {
            let (operator, build) = random.pick(&PAIRS);
            let ((left, first), (right, second)) = (value(random, 1), value(random, 1));
            let head = vec![Content::Condition(operator, 0)];
            (build(left, right), [head, first, second].concat())
        }
        4 => {
            let op = random.pick(CompareOp::ALL);
            let ((left, first), (right, second)) = (value(random, 1), value(random, 1));
            (
                Condition::compare(left, op, right),
                [vec![Content::Compare(op)], first, second].concat(),
            )
        }
        5 => children(random, depth, Operator::All, Condition::all),
        6 => children(random, depth, Operator::Any, Condition::any),
        7 => {
            let (child, contents) = condition(random, depth + 1);
            let head = vec![Content::Condition(Operator::Not, 0)];
            (Condition::not(child), [head, contents].concat())
        }
        _ => quantifier(random, depth),
    }
}

fn over_value(
    random: &mut Random,
    operator: Operator,
    build: fn(Value) -> Condition,
) -> (Condition, Contents) {
    let (value, contents) = value(random, 1);
    (
        build(value),
        [vec![Content::Condition(operator, 0)], contents].concat(),
    )
}

fn children(
    random: &mut Random,
    depth: usize,
    operator: Operator,
    build: fn(Vec<Condition>) -> Condition,
) -> (Condition, Contents) {
    let all: Vec<_> = (0..random.below(4))
        .map(|_| condition(random, depth + 1))
        .collect();
    let (all, contents): (Vec<_>, Vec<_>) = all.into_iter().unzip();
    let head = vec![Content::Condition(operator, all.len())];
    (build(all), [vec![head], contents].concat().concat())
}

fn quantifier(random: &mut Random, depth: usize) -> (Condition, Contents) {
    let bind = text(random);
    let (over, first) = value(random, 1);
    let (body, second) = condition(random, depth + 1);
    let (operator, condition) = match random.chance(2) {
        true => (Operator::ForAll, Condition::for_all(bind, over, body)),
        false => (Operator::ForAny, Condition::for_any(bind, over, body)),
    };
    (
        condition,
        [vec![Content::Quantifier(operator, bind)], first, second].concat(),
    )
}

/// A field, and the entries that it must become.
fn field(random: &mut Random, name: &'static str, depth: usize) -> (Field, Contents) {
    let kind = random.pick(FieldKind::ALL);
    let (open, has_tag) = (random.chance(2), random.chance(3));
    let tag = has_tag.then(|| text(random));
    let element = (depth < 5 && random.chance(3)).then(|| field(random, "", depth + 1));
    let properties = if depth < 5 {
        fields(random, depth + 1)
    } else {
        BTreeMap::new()
    };

    let head = Content::Field {
        kind,
        open,
        items: element.is_some(),
        properties: properties.len(),
        name,
        tag,
    };
    let mut contents = vec![head];
    let mut built = Field::new(name, kind);
    for (property, inner) in properties.into_values() {
        built = built.property(property);
        contents.extend(inner);
    }
    if let Some((element, inner)) = element {
        built = built.items(element);
        contents.splice(1..1, inner);
    }
    built = if open { built.open() } else { built };
    (tag.into_iter().fold(built, Field::tag), contents)
}

/// Fields beside each other, by their names.
fn fields(random: &mut Random, depth: usize) -> BTreeMap<&'static str, (Field, Contents)> {
    let names: Vec<_> = (0..random.below(3)).map(|_| text(random)).collect();
    names
        .into_iter()
        .map(|name| (name, field(random, name, depth)))
        .collect()
}

fn contents_of<'a>(entries: &[Entry<'a>]) -> Vec<Content<'a>> {
    entries.iter().map(|entry| entry.content).collect()
}

#[test]
fn generated_schemas_read_back() {
    let mut random = Random(0x5EED_0001);
    for _ in 0..2_000 {
        let (record, arguments) = (
            fields(&mut random, 1),
            random.chance(2).then(|| fields(&mut random, 1)),
        );
        let head = Content::Head {
            open: false,
            fields: record.len(),
            arguments: arguments.as_ref().map(|fields| (true, fields.len())),
        };
        let (mut schema, mut expected) = (Schema::new(), vec![head]);
        for (field, contents) in record.into_values() {
            schema = schema.field(field);
            expected.extend(contents);
        }
        if let Some(arguments) = arguments {
            schema = schema.open_arguments();
            for (argument, contents) in arguments.into_values() {
                schema = schema.argument(argument);
                expected.extend(contents);
            }
        }
        let sheet = schema.sheet().expect("a small schema");
        assert!(takes_schema(&sheet));
        let entries = read_schema(&sheet).expect("what was written is read");
        assert_eq!(contents_of(&entries), expected);
    }
}

#[test]
fn generated_rules_read_back() {
    let mut random = Random(0x5EED_0002);
    let mut read = 0;
    for _ in 0..5_000 {
        let (condition, contents) = condition(&mut random, 1);
        let mut rule = Rule::new(condition);
        let [name, message] = [(); 2].map(|()| random.chance(2).then(|| text(&mut random)));
        rule = name.into_iter().fold(rule, Rule::name);
        rule = message.into_iter().fold(rule, Rule::message);
        let Ok(sheet) = rule.sheet() else {
            assert!(contents.len() > 1_000, "only a large rule passes a limit");
            continue;
        };
        assert!(takes_rule(&sheet));
        let entries = read_rule(&sheet).expect("what was written is read");
        let expected = [vec![Content::Rule { name, message }], contents].concat();
        assert_eq!(contents_of(&entries), expected);
        let text = rule_to_json(&sheet).expect("a rule has JSON");
        assert_eq!(rule_from_json(text), Ok(sheet));
        read += 1;
    }
    assert!(read > 4_900, "{read}");
}

#[test]
fn generated_templates_read_back() {
    let mut random = Random(0x5EED_0003);
    for _ in 0..5_000 {
        let (value, contents) = value(&mut random, 1);
        let sheet = Template::new(value).sheet().expect("a small template");
        assert!(takes_rule(&sheet));
        let entries = read_rule(&sheet).expect("what was written is read");
        assert_eq!(
            contents_of(&entries),
            [vec![Content::Template], contents].concat()
        );
    }
}

/// Each sheet with one byte replaced, left out or doubled, and cut short: the reader and the library agree on all of them.
#[test]
fn the_reader_of_entries_agrees_on_damaged_sheets() {
    let mut random = Random(0x5EED_0004);
    let mut pairs = 0;
    for _ in 0..60 {
        let (condition, _) = condition(&mut random, 4);
        let Ok(sheet) = Rule::new(condition).name("n").sheet() else {
            continue;
        };
        for _ in 0..200 {
            let damaged = damage(&mut random, &sheet);
            assert_eq!(
                read_rule(&damaged).is_ok(),
                takes_rule(&damaged),
                "{:?}",
                String::from_utf8_lossy(&damaged)
            );
        }
        let (first, _) = field(&mut random, "f", 2);
        let sheet = Schema::new()
            .field(first)
            .arguments()
            .sheet()
            .expect("a small schema");
        for _ in 0..200 {
            let damaged = damage(&mut random, &sheet);
            assert_eq!(
                read_schema(&damaged).is_ok(),
                takes_schema(&damaged),
                "{:?}",
                String::from_utf8_lossy(&damaged)
            );
        }
        pairs += 1;
    }
    assert!(pairs > 50, "{pairs}");
}

fn damage(random: &mut Random, sheet: &[u8]) -> Vec<u8> {
    let at = random.below(sheet.len());
    let mut damaged = sheet.to_vec();
    match random.below(4) {
        0 => damaged[at] = random.pick(b"0123456789,-\nFCVKRTH\x80"),
        1 => drop(damaged.remove(at)),
        2 => damaged.insert(at, sheet[at]),
        _ => damaged.truncate(at),
    }
    damaged
}
