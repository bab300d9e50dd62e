//! Near-misses of each row of the table of shapes: JSON that is nearly a rule, and none.

use super::generate::{condition, value};
use super::trees::{compared, members, of_condition, quantified, COMPARISONS};
use crate::generate::build::{array, number, text, value as of};
use crate::random::Random;
use model::trees::{Data, Value};

const PAIRS: [&str; 12] = ["before", "after", "eq", "ne", "gt", "gte", "lt", "lte", "in", "contains", "starts_with", "ends_with"];

/// Names that are nearly an operator's, or are one elsewhere.
const NO_OPERATORS: [&str; 22] = [
    "",
    "al",
    "alll",
    "All",
    "ALL",
    "all ",
    " all",
    "literal",
    "true",
    "ge",
    "le",
    "exist",
    "start_with",
    "startswith",
    "starts_wit",
    "starts_with_",
    "for_al",
    "for-all",
    "assert",
    "left",
    "eq\0",
    "nöt",
];

const NO_COMPARISONS: [&str; 9] = ["", "==", "EQ", "eq ", "in", "ge", "contains", "eqq", "e"];

/// JSON that is no rule.
pub fn no_rule(random: &mut Random) -> Value {
    let assert = if random.chance(60) { placed(random) } else { return head(random) };
    members(vec![("assert", assert)])
}

/// A rule whose head is wrong.
fn head(random: &mut Random) -> Value {
    let right = of_condition(&condition(random, 2));
    let no_text = no_text(random);
    let null = of(Data::Null);
    let extra = random.pick(&["x", "", "Name", "assert ", "condition", "all", "not"]);
    let which = random.below(9);
    match which {
        0 => members(vec![("assert", right), (extra, if random.chance(50) { null } else { text("x") })]),
        1 => members(vec![(extra, null), ("name", text("n")), ("assert", right), ("message", text("m"))]),
        2 => members(vec![("name", text("n")), ("message", text("m"))]),
        3 => members(vec![("name", no_text), ("assert", right)]),
        4 => members(vec![("assert", right), ("message", no_text)]),
        5 => members(Vec::new()),
        6 => right,
        7 => array(vec![members(vec![("assert", right)])]),
        _ => scalar(random),
    }
}

fn scalar(random: &mut Random) -> Value {
    random.pick(&[of(Data::Null), of(Data::Bool(true)), number("1"), text("assert"), text("")])
}

/// What is no string, and not null.
fn no_text(random: &mut Random) -> Value {
    let choices = [of(Data::Bool(false)), number("0"), array(Vec::new()), array(vec![text("n")]), members(vec![("name", text("n"))])];
    random.pick(&choices)
}

/// A condition that is none, at some place inside others.
fn placed(random: &mut Random) -> Value {
    let mut wrong = no_condition(random);
    while random.chance(40) {
        let beside = of_condition(&condition(random, 1));
        wrong = match random.below(6) {
            0 => members(vec![("not", wrong)]),
            1 => members(vec![("all", array(vec![wrong]))]),
            2 => members(vec![("any", array(vec![beside, wrong]))]),
            3 => members(vec![("all", array(vec![wrong, beside]))]),
            4 => members(vec![("for_all", quantified(value(random, 1), text("b"), wrong))]),
            _ => members(vec![("for_any", members(vec![("that", wrong), ("as", text("b")), ("in", value(random, 1))]))]),
        };
    }
    wrong
}

fn no_condition(random: &mut Random) -> Value {
    match random.below(7) {
        0 => no_boolean(random),
        1 => members(vec![(random.pick(&NO_OPERATORS), any_operand(random))]),
        2 => two_operators(random),
        3 => no_children(random),
        4 => no_pair(random),
        5 => no_comparison(random),
        _ => no_quantifier(random),
    }
}

fn no_boolean(random: &mut Random) -> Value {
    let choices = [of(Data::Null), text("true"), text(""), number("1"), number("0"), array(Vec::new()), members(Vec::new())];
    if random.chance(10) {
        return array(vec![of_condition(&condition(random, 1))]);
    }
    random.pick(&choices)
}

fn any_operand(random: &mut Random) -> Value {
    match random.below(3) {
        0 => value(random, 2),
        1 => array(vec![value(random, 1), value(random, 1)]),
        _ => array(vec![of_condition(&condition(random, 1))]),
    }
}

/// Each of them alone would be a condition.
fn two_operators(random: &mut Random) -> Value {
    let mut parts = vec![("exists", value(random, 1)), ("not", of_condition(&condition(random, 1))), ("all", array(Vec::new()))];
    parts.push((random.pick(&PAIRS), array(vec![value(random, 1), value(random, 1)])));
    parts.push((random.pick(&NO_OPERATORS), of(Data::Null)));
    random.shuffle(&mut parts);
    parts.truncate(random.between(2, 3));
    members(parts)
}

/// What `all`, `any` and `not` do not take.
fn no_children(random: &mut Random) -> Value {
    let right = of_condition(&condition(random, 1));
    let many = random.pick(&["all", "any"]);
    match random.below(6) {
        0 => members(vec![(many, of(Data::Null))]),
        1 => members(vec![(many, right)]),
        2 => members(vec![(many, array(vec![right, scalar_condition(random)]))]),
        3 => members(vec![("not", array(vec![right]))]),
        4 => members(vec![("not", array(vec![right.clone(), right]))]),
        _ => members(vec![("not", scalar_condition(random))]),
    }
}

/// A scalar that is no condition.
fn scalar_condition(random: &mut Random) -> Value {
    random.pick(&[of(Data::Null), number("1"), text("true")])
}

fn no_pair(random: &mut Random) -> Value {
    let name = random.pick(&PAIRS);
    let mut some = |count: usize| array((0..count).map(|_| value(random, 2)).collect());
    let operand = [some(0), some(1), some(3), some(4)];
    let operand = match random.below(7) {
        index @ 0..=3 => operand[index].clone(),
        4 => scalar(random),
        5 => members(vec![("left", value(random, 1)), ("right", value(random, 1))]),
        _ => members(Vec::new()),
    };
    members(vec![(name, operand)])
}

fn no_comparison(random: &mut Random) -> Value {
    let (left, right, op) = (value(random, 2), value(random, 2), text(random.pick(&COMPARISONS)));
    let operand = match random.below(11) {
        0 => compared(left, text(random.pick(&NO_COMPARISONS)), right),
        1 => compared(left, no_text(random), right),
        2 => compared(left, of(Data::Null), right),
        3 => members(vec![("left", left), ("op", op)]),
        4 => members(vec![("op", op), ("right", right)]),
        5 => members(vec![("left", left), ("right", right)]),
        6 => members(vec![("left", left), ("op", op), ("right", right), (random.pick(&["x", "in", "Left", ""]), of(Data::Null))]),
        7 => array(vec![left, op, right]),
        8 => members(vec![("left", left), ("op", op), ("Right", right)]),
        9 => compared(left, members(vec![(random.pick(&COMPARISONS), of(Data::Null))]), right),
        _ => scalar(random),
    };
    members(vec![("compare", operand)])
}

fn no_quantifier(random: &mut Random) -> Value {
    let (over, body) = (value(random, 2), of_condition(&condition(random, 1)));
    let operand = match random.below(10) {
        0 => quantified(over, no_text(random), body),
        1 => quantified(over, of(Data::Null), body),
        2 => quantified(over, text("b"), scalar_condition(random)),
        3 => members(vec![("in", over), ("as", text("b"))]),
        4 => members(vec![("as", text("b")), ("that", body)]),
        5 => members(vec![("in", over), ("that", body)]),
        6 => members(vec![("in", over), ("as", text("b")), ("that", body), (random.pick(&["x", "left", "As", ""]), of(Data::Null))]),
        7 => array(vec![over, text("b"), body]),
        8 => members(vec![("in", over), ("as", text("b")), ("body", body)]),
        _ => scalar(random),
    };
    members(vec![(random.pick(&["for_all", "for_any"]), operand)])
}
