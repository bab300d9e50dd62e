//! Texts about the limits: of nesting, of a sheet's bytes, entries and texts, and objects of many keys, one of them twice or none.

use super::generate::condition;
use super::style::{Style, COMPACT};
use super::trees::{members, of_condition};
use super::{Expect, TextCase};
use crate::generate::build::{all, array, exists, literal, not, number, object, pair, quantifier, text, value};
use crate::limits::{MAX_CONDITION_NESTING, MAX_JSON_NESTING, MAX_RULE_ENTRIES, MAX_SHEET_BYTES, MAX_TEXT_BYTES, MAX_VALUE_NESTING};
use crate::random::Random;
use model::trees::{Condition, Data, Rule, Sheet, Value};
use model::write_rule;

/// The text of a rule in some style, which gives its sheet, or 32 where that is over a limit.
fn case(random: &mut Random, rule: Rule, is_within: bool) -> TextCase {
    let style = if random.chance(50) { COMPACT } else { Style::any(random) };
    let text = style.rule(random, &rule);
    let sheet = write_rule(&Sheet::Rule(rule));
    TextCase::new(text, if is_within { Expect::Sheet(sheet) } else { Expect::Number(32) })
}

fn bare(condition: Condition) -> Rule {
    Rule { name: None, message: None, condition }
}

/// One limit of a sheet, met, missed by one or passed by one.
pub fn of_sheet(random: &mut Random) -> TextCase {
    let step = random.below(3);
    let is_within = step < 2;
    let rule = match random.below(5) {
        0 => of_text(random, MAX_TEXT_BYTES - 1 + step),
        1 => bare(of_entries(random, MAX_RULE_ENTRIES - 1 + step)),
        2 => of_bytes(MAX_SHEET_BYTES - 1 + step),
        3 => bare(exists(nested(random, MAX_VALUE_NESTING - 1 + step))),
        _ => bare(deep(random, MAX_CONDITION_NESTING - 1 + step)),
    };
    case(random, rule, is_within)
}

fn of_text(random: &mut Random, bytes: usize) -> Rule {
    let long = crate::generate::limits::long(random, bytes);
    let headed = |name, message| Rule { name, message, condition: literal(true) };
    match random.below(6) {
        0 => headed(Some(long), None),
        1 => headed(None, Some(long)),
        2 => bare(quantifier(21, &long, text("$fields.a"), literal(false))),
        3 => bare(exists(object(vec![(long, value(Data::Null))]))),
        4 => bare(pair(16, text(&long), text("a"))),
        _ => bare(pair(8, number("1"), number(&format!("-{}", "9".repeat(bytes - 1))))),
    }
}

/// So many entries with the rule's own: literals, or elements of one value, or members.
fn of_entries(random: &mut Random, entries: usize) -> Condition {
    let value_of = |data: Value| exists(data);
    match random.below(3) {
        0 => all((2..entries).map(|_| literal(true)).collect()),
        1 => value_of(array((3..entries).map(|_| value(Data::Null)).collect())),
        _ => {
            // A member has two entries; where one is left, it is an element beside.
            let count = (entries - 4) / 2;
            let object = object((0..count).map(|index| (format!("{index}"), value(Data::Bool(true)))).collect());
            let beside = (entries - 4) % 2;
            value_of(array([vec![object], vec![number("0"); beside]].concat()))
        }
    }
}

fn of_bytes(bytes: usize) -> Rule {
    let with = |last: usize| {
        let strings = (0..100).map(|_| text(&"x".repeat(288))).chain([text(&"x".repeat(last))]).collect();
        bare(exists(array(strings)))
    };
    let missing = bytes - write_rule(&Sheet::Rule(with(100))).len();
    with(100 + missing)
}

/// A value of so many levels.
fn nested(random: &mut Random, levels: usize) -> Value {
    let innermost = random.pick(&[number("1"), array(Vec::new()), object(Vec::new())]);
    (1..levels).fold(innermost, |inner, _| match random.below(3) {
        0 => object(vec![("a".to_owned(), inner)]),
        1 => array(vec![number("1"), inner]),
        _ => array(vec![inner]),
    })
}

/// A condition of so many levels.
fn deep(random: &mut Random, levels: usize) -> Condition {
    (1..levels).fold(literal(true), |inner, _| match random.below(4) {
        0 => all(vec![inner]),
        1 => quantifier(20, "b", number("1"), inner),
        _ => not(inner),
    })
}

/// So many arrays and objects in one another, by a value or by conditions: over the limits of a sheet, and at 1,024 of what may be read.
pub fn of_nesting(random: &mut Random) -> TextCase {
    let levels = MAX_JSON_NESTING - 1 + random.below(3);
    let expect = Expect::Number(if levels > MAX_JSON_NESTING { 31 } else { 32 });
    let text = match random.below(3) {
        0 => by_arrays(random, levels),
        1 => by_not(levels),
        _ => by_objects(random, levels),
    };
    TextCase::new(text, expect)
}

/// The rule and its condition are two of the levels.
pub fn by_arrays(random: &mut Random, levels: usize) -> String {
    let innermost = random.pick(&["1", "", "\"x\"", "null"]);
    format!("{{\"assert\":{{\"truthy\":{}{innermost}{}}}}}", "[".repeat(levels - 2), "]".repeat(levels - 2))
}

/// The rule is one.
pub fn by_not(levels: usize) -> String {
    format!("{{\"assert\":{}true{}}}", "{\"not\":".repeat(levels - 1), "}".repeat(levels - 1))
}

fn by_objects(random: &mut Random, levels: usize) -> String {
    let innermost = random.pick(&["1", "{}", "[]"]);
    let containers = levels - 2 - usize::from(innermost != "1");
    format!("{{\"assert\":{{\"eq\":[0,{}{innermost}{}]}}}}", "{\"a\":".repeat(containers - 1), "}".repeat(containers - 1))
}

/// An object of many keys, one of which may stand twice, near to itself or far from it; or a text that is too long as well.
pub fn repeated(random: &mut Random) -> TextCase {
    let count = match random.below(20) {
        0 => random.between(1_000, 3_300),
        1..=4 => random.between(40, 700),
        _ => random.between(2, 30),
    };
    let mut keys: Vec<String> = (0..count).map(|index| key(random, index)).collect();
    let (one, other) = (random.below(count), random.below(count));
    let is_twice = one != other && random.chance(60);
    if is_twice {
        keys[one] = keys[other].clone();
    }
    let pairs = keys.into_iter().map(|key| (key, number("1"))).collect();
    let mut tree = value(Data::Object(pairs));
    let is_long = random.chance(30);
    if is_long {
        tree = if random.chance(50) { array(vec![tree, text(&"x".repeat(513))]) } else { array(vec![text(&"x".repeat(513)), tree]) };
    }
    let rule = members(vec![("assert", members(vec![("exists", tree.clone())]))]);
    let style = if count > 100 { COMPACT } else { Style::any(random) };
    let text = style.text(random, &rule);
    let sheet = write_rule(&Sheet::Rule(bare(exists(tree))));
    let is_within = !is_long && sheet.len() <= MAX_SHEET_BYTES && 2 * count + 3 <= MAX_RULE_ENTRIES;
    let expect = match (is_twice, is_within) {
        (true, _) => Expect::Number(31),
        (false, false) => Expect::Number(32),
        (false, true) => Expect::Sheet(sheet),
    };
    TextCase::new(text, expect)
}

/// Keys that differ at their end, at their start, or in length alone.
fn key(random: &mut Random, index: usize) -> String {
    match random.below(4) {
        0 => format!("key{index}"),
        1 => format!("{index}é"),
        2 => format!("\u{1}{index}\""),
        _ => format!("{index:05}"),
    }
}

/// A member twice where a rule or a condition has its parts.
pub fn part_repeated(random: &mut Random) -> TextCase {
    let right = of_condition(&condition(random, 2));
    let compared = || vec![("left", number("1")), ("op", text("eq")), ("right", number("1"))];
    let quantified = |that: &Value| vec![("in", number("1")), ("as", text("b")), ("that", that.clone())];
    let mut again = |mut parts: Vec<(&'static str, Value)>| {
        let part = random.pick(&parts);
        parts.insert(random.below(parts.len() + 1), part);
        members(parts)
    };
    let choices = [
        again(vec![("assert", right.clone())]),
        again(vec![("name", value(Data::Null)), ("assert", right.clone()), ("message", text("m"))]),
        members(vec![("assert", again(vec![("not", right.clone())]))]),
        members(vec![("assert", members(vec![("compare", again(compared()))]))]),
        members(vec![("assert", members(vec![("for_all", again(quantified(&right)))]))]),
    ];
    let tree = random.pick(&choices);
    let style = Style::any(random);
    TextCase::new(style.text(random, &tree), Expect::Number(31))
}
