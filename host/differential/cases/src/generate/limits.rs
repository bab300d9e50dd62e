//! Cases at the limits of a call: settings, labels and buffers, lengths of texts and sheets, numbers of entries; and wide ones.

use crate::case::{Case, Expect};
use crate::generate::build::{
    all, array, condition, element, exists, field, holder, literal, number, object, pair, quantifier, rule, schema, text, ARRAY, INTEGER,
    OBJECT, UNION,
};
use crate::generate::names::Names;
use crate::generate::setting::Setting;
use crate::generate::{schemas, tables};
use crate::limits::{
    MAX_FIELD_NESTING, MAX_LABEL_BYTES, MAX_RULE_ENTRIES, MAX_SCHEMA_ENTRIES, MAX_SHEET_BYTES, MAX_TEXT_BYTES, MIN_PATH_BYTES,
    MIN_SCRATCH_WORDS, REFUSALS,
};
use crate::random::Random;
use model::trees::{Field, Operator, Rule, Schema, Sheet, Value};
use model::{write_rule, write_schema};

/// Numbers of kinds and semantics that there are not, some past 32 bits.
pub const NO_SETTINGS: [u64; 6] = [0, 9, 255, 256 + 1, (1 << 32) + 1, u64::MAX];

pub const NO_UTF8: [&[u8]; 8] =
    [b"\x80", b"\xc3", b"\xc0\x80", b"\xed\xa0\x80", b"\xf4\x90\x80\x80", b"a\xffb", b"\xe2\x82", b"\xf0\x8f\xbf\xbf"];

/// A right case with some of the refusals called for, those of a table where it is lent one: the first of them answers.
pub fn settings(random: &mut Random, names: &Names) -> Case {
    let mut case = super::setting::right(random, names);
    case.label = vec![b'l'; random.pick(&[0, MAX_LABEL_BYTES - 1, MAX_LABEL_BYTES])];
    let mut first = 0;
    for refusal in refusals_of(&case).into_iter().rev() {
        if random.chance(30) {
            refuse(random, &mut case, refusal);
            first = refusal;
        }
    }
    case.expecting(Expect::Number(first))
}

/// The refusals that a case can meet, in their order.
pub fn refusals_of(case: &Case) -> Vec<u32> {
    let is_of_table = |refusal: &u32| matches!(refusal, 37 | 38);
    REFUSALS.into_iter().filter(|refusal| !case.table.is_empty() || !is_of_table(refusal)).collect()
}

/// Changes the case so that the refusal applies. A table is made unsound before it is damaged.
pub fn refuse(random: &mut Random, case: &mut Case, refusal: u32) {
    match refusal {
        1 if random.chance(50) => case.kind = random.pick(&NO_SETTINGS),
        1 => case.semantics = random.pick(&[0, 5, 6, (1 << 32) + 2, u64::MAX]),
        2 if random.chance(50) => case.label = vec![b'l'; MAX_LABEL_BYTES + 1],
        2 => case.label = random.pick(&NO_UTF8).to_vec(),
        3 if random.chance(50) => case.path_len = random.pick(&[0, MIN_PATH_BYTES - 1]),
        3 => case.scratch_len = random.pick(&[0, MIN_SCRATCH_WORDS - 1]),
        37 => tables::damage(random, &mut case.table),
        38 => tables::unsound(random, &mut case.table),
        4 => case.schema = broken(random, &case.schema),
        _ => case.rule = broken(random, &case.rule),
    }
}

/// A sheet that is not well formed: nothing may follow the last entry or be missing there.
pub fn broken(random: &mut Random, sheet: &[u8]) -> Vec<u8> {
    match random.below(3) {
        0 => sheet[..sheet.len() - 1].to_vec(),
        1 => [sheet, b"\n"].concat(),
        _ => Vec::new(),
    }
}

/// One limit, met, missed by one or passed by one.
pub fn case(random: &mut Random, names: &Names) -> Case {
    let setting = Setting::new(random, names);
    let step = random.below(3);
    match random.below(6) {
        0 => schema_text(random, &setting, MAX_TEXT_BYTES - 1 + step),
        1 => rule_text(random, &setting, MAX_TEXT_BYTES - 1 + step),
        2 => schema_entries(random, &setting, MAX_SCHEMA_ENTRIES - 1 + step),
        3 => rule_entries(&setting, MAX_RULE_ENTRIES - 1 + step),
        4 => schema_bytes(&setting, MAX_SHEET_BYTES - 1 + step),
        _ => rule_bytes(random, &setting, MAX_SHEET_BYTES - 1 + step),
    }
}

/// Expects the refusal where the limit is passed.
fn at_limit(case: Case, size: usize, limit: usize, refusal: u32) -> Case {
    case.expecting(if size > limit { Expect::Number(refusal) } else { Expect::Read })
}

fn empty() -> Schema {
    schema(holder(false, Vec::new()), None)
}

/// A text of that many bytes, of characters of one, two or three bytes.
pub fn long(random: &mut Random, bytes: usize) -> String {
    let wide = random.pick(&["x", "é", "日"]);
    let mut text = wide.repeat(bytes / wide.len());
    text.push_str(&"x".repeat(bytes - text.len()));
    text
}

fn schema_text(random: &mut Random, setting: &Setting, bytes: usize) -> Case {
    let text = long(random, bytes);
    let made = if random.chance(50) { field(&text, INTEGER) } else { Field { tag: Some(text), ..field("u", UNION) } };
    let schema = schema(holder(false, vec![made]), None);
    let case = setting.case(&schema, &rule(exists(super::build::text("$id"))));
    at_limit(case, bytes, MAX_TEXT_BYTES, 4)
}

fn rule_text(random: &mut Random, setting: &Setting, bytes: usize) -> Case {
    let long = long(random, bytes);
    let named = |name, message| Sheet::Rule(Rule { name, message, condition: literal(true) });
    let sheet = match random.below(6) {
        0 => named(Some(long), None),
        1 => named(None, Some(long)),
        2 => rule(quantifier(20, &long, text("$fields.a"), literal(true))),
        3 => Sheet::Template(object(vec![(long, text("$id"))])),
        4 => Sheet::Template(text(&long)),
        _ => rule(pair(8, number(&"9".repeat(bytes)), number("1"))),
    };
    at_limit(setting.case(&empty(), &sheet), bytes, MAX_TEXT_BYTES, 5)
}

/// Schemas of so many entries, the head among them: side by side, one in another, with arguments, with elements.
pub const SHAPES: [fn(usize) -> Schema; 4] = [side_by_side, one_in_another, with_arguments, with_elements];

fn side_by_side(entries: usize) -> Schema {
    schema(holder(false, integers(entries - 1)), None)
}

fn integers(count: usize) -> Vec<Field> {
    (0..count).map(|index| field(&numbered(index), INTEGER)).collect()
}

fn numbered(index: usize) -> String {
    format!("{index:04}")
}

/// Objects that nest as deep as they may, and beside them what is left.
fn one_in_another(entries: usize) -> Schema {
    let fields = entries - 1;
    let nested = |start: usize| {
        let levels = MAX_FIELD_NESTING.min(fields - start);
        let below = (1..levels).fold(Vec::new(), |properties, _| vec![Field { properties, ..field("n", OBJECT) }]);
        Field { properties: below, ..field(&numbered(start), OBJECT) }
    };
    schema(holder(false, (0..fields).step_by(MAX_FIELD_NESTING).map(nested).collect()), None)
}

/// Half of the fields are arguments.
fn with_arguments(entries: usize) -> Schema {
    let record = (entries - 1) / 2;
    schema(holder(false, integers(record)), Some(holder(false, integers(entries - 1 - record))))
}

/// Arrays and their elements; the last has none where the fields are odd in number.
fn with_elements(entries: usize) -> Schema {
    let fields = entries - 1;
    let array = |start: usize| {
        let items = (start + 1 < fields).then(|| element(field("", INTEGER))).flatten();
        Field { items, ..field(&numbered(start), ARRAY) }
    };
    schema(holder(false, (0..fields).step_by(2).map(array).collect()), None)
}

/// A schema of that many entries, and a rule or template for it.
fn schema_entries(random: &mut Random, setting: &Setting, count: usize) -> Case {
    let schema = random.pick(&SHAPES)(count);
    let scope = setting.scope(&schema, 0);
    let sheet = if random.chance(30) { scope.template(random) } else { scope.rule(random, 3) };
    let expect = if count > MAX_SCHEMA_ENTRIES { Expect::Number(4) } else { Expect::Number(0) };
    setting.case(&schema, &sheet).expecting(expect)
}

/// A rule of that many entries: the head, `all`, and its children.
fn rule_entries(setting: &Setting, count: usize) -> Case {
    let children = (2..count).map(|_| literal(true)).collect();
    let case = setting.case(&empty(), &rule(all(children)));
    let expect = if count > MAX_RULE_ENTRIES { Expect::Number(5) } else { Expect::Number(0) };
    case.expecting(expect)
}

/// A schema of that many bytes, with names of equal length but for the last one.
pub fn schema_bytes(setting: &Setting, bytes: usize) -> Case {
    let named = |index: usize, length: usize| field(&format!("{index:0length$}"), INTEGER);
    let with = |last: usize| {
        let fields = (0..100).map(|index| named(index, 280)).chain([named(100, last)]).collect();
        write_schema(&schema(holder(false, fields), None))
    };
    let missing = bytes - with(100).len();
    let sheet = with(100 + missing);
    assert_eq!(sheet.len(), bytes, "the last name makes up the length");
    let case = Case { schema: sheet, ..setting.case(&empty(), &Sheet::Template(text("$id"))) };
    at_limit(case, bytes, MAX_SHEET_BYTES, 4)
}

/// A rule or template of that many bytes, with strings of equal length but for the last one.
fn rule_bytes(random: &mut Random, setting: &Setting, bytes: usize) -> Case {
    let as_rule = random.chance(50);
    let with = |last: usize| {
        let strings = (0..100).map(|_| text(&"x".repeat(288))).chain([text(&"x".repeat(last))]).collect();
        let tree = array(strings);
        write_rule(&if as_rule { rule(exists(tree)) } else { Sheet::Template(tree) })
    };
    let missing = bytes - with(100).len();
    let sheet = with(100 + missing);
    assert_eq!(sheet.len(), bytes, "the last string makes up the length");
    let case = Case { rule: sheet, ..setting.case(&empty(), &Sheet::Template(text("$id"))) };
    at_limit(case, bytes, MAX_SHEET_BYTES, 5)
}

/// Many fields, conditions, members, and long paths.
pub fn wide(random: &mut Random, names: &Names) -> Case {
    let setting = Setting::new(random, names);
    let slip = random.pick(&[0, 1]);
    let many = random.between(20, 150);
    let schema = wide_schema(random, many);
    let scope = setting.scope(&schema, slip);
    let count = random.between(20, 200);
    let sheet = if random.chance(30) {
        let mut members: Vec<_> = (0..count).map(|index| (format!("k{index}"), scope.value(random, 3))).collect();
        members.sort_by(|(one, _), (other, _)| one.cmp(other));
        if random.chance(50) {
            random.shuffle(&mut members);
        }
        Sheet::Template(nested(random, object(members)))
    } else {
        let children = (0..count).map(|_| scope.condition(random, 3)).collect();
        rule(condition(if random.chance(50) { Operator::All(children) } else { Operator::Any(children) }))
    };
    setting.case(&schema, &sheet)
}

fn nested(random: &mut Random, value: Value) -> Value {
    if random.chance(50) {
        array(vec![text("$id"), value])
    } else {
        value
    }
}

fn wide_schema(random: &mut Random, fields: usize) -> Schema {
    let mut wide = schemas::schema(random, 3);
    let many = (0..fields).map(|index| Field { name: format!("f{index}"), ..schemas::a_field(random, 3) });
    let all = wide.record.fields.drain(..).collect::<Vec<_>>().into_iter().chain(many).collect();
    wide.record = holder(wide.record.open, all);
    wide
}
