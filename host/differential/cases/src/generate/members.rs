//! Objects by the order of their members: keys that rise, fall or lie in no order, none of them twice or one, and two defects in one object.

use crate::case::{Case, Expect};
use crate::generate::build::{exists, number, pair, rule, text, value};
use crate::generate::names::Names;
use crate::generate::schemas::{self, NAMES};
use crate::generate::setting::Setting;
use crate::random::Random;
use model::trees::{Condition, Data, Operator, Sheet, Value};
use model::{decode_rule, write_rule};
use std::sync::OnceLock;

/// How many members there are. The library compares up to twelve keys each with each, and looks up more of them in a table.
const COUNTS: [usize; 16] = [2, 2, 3, 3, 4, 6, 9, 11, 12, 13, 14, 20, 40, 120, 400, 1_000];

/// With so many members there is room in a sheet for short keys and for null alone.
const MANY: usize = 100;

type Members = Vec<(String, Value)>;

/// A template or condition of one object.
pub fn case(random: &mut Random, names: &Names) -> Case {
    let setting = Setting::new(random, names);
    let schema = schemas::schema(random, 2);
    let scope = setting.scope(&schema, 0);
    let count = random.pick(&COUNTS);
    let mut members: Members = keys(random, count).into_iter().map(|key| (key, value(Data::Null))).collect();
    order(random, &mut members);
    if count < MANY && random.chance(50) {
        members.iter_mut().for_each(|(_, member)| *member = scope.scalar(random));
    }
    let expect = match random.below(10) {
        0..=2 => repeated(random, &mut members),
        3..=6 => two_defects(random, &mut members),
        _ => Expect::Number(0),
    };
    let object = value(Data::Object(members));
    let sheet = match expect {
        Expect::Number(14) => rule(pair(random.between(8, 15) as u8, object, text("$id"))),
        _ if random.chance(50) => Sheet::Template(object),
        _ => rule(exists(object)),
    };
    // Under kernel/1 no number is looked at, and these two are not references.
    let expect = if expect == Expect::Number(14) && setting.semantics == 1 { Expect::Number(0) } else { expect };
    setting.case(&schema, &sheet).expecting(expect)
}

/// So many keys, rising by bytes.
fn keys(random: &mut Random, count: usize) -> Vec<String> {
    let mut keys: Vec<String> = match random.below(6) {
        0 if count <= NAMES.len() => NAMES[..count].iter().map(|name| (*name).to_owned()).collect(),
        // Each begins as the one before it does.
        1 if count < MANY => (0..count).map(|length| "a".repeat(length)).collect(),
        // They differ in the first byte, or in the last.
        2 if count < MANY => (0..count).map(|index| format!("{}{}", char::from(b'!' + index as u8), "z".repeat(20))).collect(),
        3 if count < MANY => (0..count).map(|index| format!("{}{}", "z".repeat(20), char::from(b'!' + index as u8))).collect(),
        4 if count <= ONE_SLOT => one_slot()[..count].to_vec(),
        _ => (0..count).map(|index| format!("{index:x}")).collect(),
    };
    keys.sort_unstable_by(|one, other| one.as_bytes().cmp(other.as_bytes()));
    keys
}

/// How many keys of one slot are available.
const ONE_SLOT: usize = 400;

/// Keys that all fall into one slot of the library's table, which goes by the eight highest of these ten bits.
fn one_slot() -> &'static [String] {
    static KEYS: OnceLock<Vec<String>> = OnceLock::new();
    KEYS.get_or_init(|| (0..).map(|index| format!("{index:x}")).filter(|key| slot(key) == 7).take(ONE_SLOT).collect())
}

fn slot(key: &str) -> u32 {
    key.bytes().fold(0_u32, |mixed, byte| mixed.wrapping_add(u32::from(byte)).wrapping_mul(2_654_435_761)) >> 22
}

/// The members as they rise in a quarter of the cases, else falling, in no order, or all but one as they rise.
fn order(random: &mut Random, members: &mut Members) {
    match random.below(4) {
        0 => {}
        1 => members.reverse(),
        2 => random.shuffle(members),
        _ => {
            let member = members.remove(random.below(members.len()));
            members.insert(random.below(members.len() + 1), member);
        }
    }
}

/// One key takes the place of another, near or far.
fn repeated(random: &mut Random, members: &mut Members) -> Expect {
    let (from, to) = two_of(random, members.len());
    members[to].0 = members[from].0.clone();
    Expect::Number(5)
}

/// Two different places; in part of the cases neighbours, or the first and the last.
fn two_of(random: &mut Random, count: usize) -> (usize, usize) {
    let first = random.below(count - 1);
    let (one, other) = match random.below(4) {
        0 => (0, count - 1),
        1 => (first, first + 1),
        _ => (first, random.between(first + 1, count - 1)),
    };
    if random.chance(50) {
        (one, other)
    } else {
        (other, one)
    }
}

/// Two members that each are a defect: the one that is written first is found, whatever their keys. The path and what the Rust quotes tell which.
fn two_defects(random: &mut Random, members: &mut Members) -> Expect {
    let (one, other) = two_of(random, members.len());
    if random.chance(25) {
        (members[one].1, members[other].1) = (number("1e309"), number("2e309"));
        return Expect::Number(14);
    }
    (members[one].1, members[other].1) = (text("$nope"), text("$none.x"));
    Expect::Detail(18, 12)
}

/// The case with a key of one object made that of another member of it; none where no object of the rule has two.
pub fn key_twice(random: &mut Random, case: &Case) -> Option<Case> {
    let mut sheet = decode_rule(&case.rule)?;
    let mut objects = Vec::new();
    match &mut sheet {
        Sheet::Template(value) => in_value(value, &mut objects),
        Sheet::Rule(rule) => in_condition(&mut rule.condition, &mut objects),
    }
    objects.retain(|members| members.len() > 1);
    if objects.is_empty() {
        return None;
    }
    let at = random.below(objects.len());
    let expect = repeated(random, objects[at]);
    let rule = write_rule(&sheet);
    Some(Case { rule, ..case.clone() }.expecting(expect))
}

fn in_value<'v>(value: &'v mut Value, objects: &mut Vec<&'v mut Members>) {
    match &mut value.data {
        Data::Array(values) => values.iter_mut().for_each(|value| in_value(value, objects)),
        // Below an object that is changed nothing else is.
        Data::Object(members) => objects.push(members),
        _ => {}
    }
}

fn in_condition<'v>(condition: &'v mut Condition, objects: &mut Vec<&'v mut Members>) {
    match &mut condition.operator {
        Operator::Literal(_) => {}
        Operator::All(children) | Operator::Any(children) => children.iter_mut().for_each(|child| in_condition(child, objects)),
        Operator::Not(child) => in_condition(child, objects),
        Operator::Exists(value) | Operator::Truthy(value) => in_value(value, objects),
        Operator::Pair(_, sides) | Operator::Compare(_, sides) => sides.iter_mut().for_each(|side| in_value(side, objects)),
        Operator::Quantifier { over, body, .. } => {
            in_value(over, objects);
            in_condition(body, objects);
        }
    }
}
