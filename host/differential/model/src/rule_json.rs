//! Rules as JSON (docs/FORMAT.md, "Rules as JSON"): a sheet made of a text, and a text made of a sheet.

use super::json::{document, write_json};
use super::sheets::{decode_rule, write_rule};
use super::trees::{Condition, Data, Operator, Rule, Sheet, Value};
use std::collections::HashSet;

/// What is made, or the refusal's number.
pub type Converted = Result<Vec<u8>, u32>;

/// The sheet of a rule written as JSON, where the lent buffer has so many bytes.
pub fn from_json(text: &[u8], room: usize) -> Converted {
    let rule = rule_in(text).ok_or(31u32)?;
    let sheet = write_rule(&Sheet::Rule(rule));
    if decode_rule(&sheet).is_none() {
        return Err(32);
    }
    fitting(sheet, room)
}

/// The JSON of a rule's sheet, where the lent buffer has so many bytes.
pub fn to_json(sheet: &[u8], room: usize) -> Converted {
    match decode_rule(sheet) {
        Some(Sheet::Rule(rule)) => fitting(json_of_rule(&rule).into_bytes(), room),
        _ => Err(5),
    }
}

fn fitting(made: Vec<u8>, room: usize) -> Converted {
    if made.len() > room {
        return Err(33);
    }
    Ok(made)
}

/// The rule that a text is, of whatever size; none is 31.
pub fn rule_in(text: &[u8]) -> Option<Rule> {
    let value = document(text)?;
    if !is_distinct(&value) {
        return None;
    }
    rule_of(value)
}

/// Whether no object of the tree has a key twice.
pub fn is_distinct(value: &Value) -> bool {
    match &value.data {
        Data::Array(values) => values.iter().all(is_distinct),
        Data::Object(members) => {
            let mut met = HashSet::new();
            members
                .iter()
                .all(|(key, value)| met.insert(key) && is_distinct(value))
        }
        _ => true,
    }
}

/// The members of an object by these names, in their order; none where it has another.
fn members<const N: usize>(value: Value, names: [&str; N]) -> Option<[Option<Value>; N]> {
    let Data::Object(members) = value.data else {
        return None;
    };
    let mut found = names.map(|_| None);
    for (key, value) in members {
        let place = names.iter().position(|name| *name == key)?;
        found[place] = Some(value);
    }
    Some(found)
}

/// A rule: `assert`, and perhaps `name` and `message`.
fn rule_of(value: Value) -> Option<Rule> {
    let [name, assert, message] = members(value, ["name", "assert", "message"])?;
    Some(Rule {
        name: text_or_absent(name)?,
        condition: condition_of(assert?)?,
        message: text_or_absent(message)?,
    })
}

/// Null counts as absent.
fn text_or_absent(value: Option<Value>) -> Option<Option<String>> {
    match value {
        None => Some(None),
        Some(value) if value.data == Data::Null => Some(None),
        Some(value) => text_of(value).map(Some),
    }
}

fn text_of(value: Value) -> Option<String> {
    match value.data {
        Data::String(text) => Some(text),
        _ => None,
    }
}

/// The names of operators 2 to 21, in the order of their numbers.
pub const OPERATORS: [&str; 20] = [
    "all",
    "any",
    "not",
    "exists",
    "before",
    "after",
    "eq",
    "ne",
    "gt",
    "gte",
    "lt",
    "lte",
    "in",
    "contains",
    "starts_with",
    "ends_with",
    "compare",
    "truthy",
    "for_all",
    "for_any",
];

/// The comparisons of `compare`, from 1.
pub const COMPARISONS: [&str; 6] = ["eq", "ne", "lt", "lte", "gt", "gte"];

/// A condition: `true`, `false`, or an object with exactly one operator.
fn condition_of(value: Value) -> Option<Condition> {
    let operator = match value.data {
        Data::Bool(truth) => Operator::Literal(truth),
        Data::Object(members) => {
            let [(name, operand)] = <[_; 1]>::try_from(members).ok()?;
            let place = OPERATORS.iter().position(|operator| *operator == name)?;
            operator_of(place as u8 + 2, operand)?
        }
        _ => return None,
    };
    Some(Condition { entry: 0, operator })
}

fn operator_of(number: u8, operand: Value) -> Option<Operator> {
    Some(match number {
        2 => Operator::All(conditions_of(operand)?),
        3 => Operator::Any(conditions_of(operand)?),
        4 => Operator::Not(Box::new(condition_of(operand)?)),
        5 => Operator::Exists(operand),
        18 => comparison_of(operand)?,
        19 => Operator::Truthy(operand),
        20 | 21 => quantifier_of(number, operand)?,
        pair => Operator::Pair(pair, Box::new(elements_of(operand)?.try_into().ok()?)),
    })
}

fn elements_of(value: Value) -> Option<Vec<Value>> {
    match value.data {
        Data::Array(values) => Some(values),
        _ => None,
    }
}

fn conditions_of(value: Value) -> Option<Vec<Condition>> {
    elements_of(value)?.into_iter().map(condition_of).collect()
}

/// `left`, `op` and `right`, all three.
fn comparison_of(value: Value) -> Option<Operator> {
    let [left, op, right] = members(value, ["left", "op", "right"])?;
    let op = text_of(op?)?;
    let place = COMPARISONS.iter().position(|name| *name == op)?;
    Some(Operator::Compare(
        place as u8 + 1,
        Box::new([left?, right?]),
    ))
}

/// `in`, `as` and `that`, all three.
fn quantifier_of(operator: u8, value: Value) -> Option<Operator> {
    let [over, bind, body] = members(value, ["in", "as", "that"])?;
    Some(Operator::Quantifier {
        operator,
        over: over?,
        bind: text_of(bind?)?,
        body: Box::new(condition_of(body?)?),
    })
}

/// Compact JSON, members in definition.rs's order, absent ones left out.
pub fn json_of_rule(rule: &Rule) -> String {
    let text = |text: &Option<String>| text.clone().map(|text| as_value(Data::String(text)));
    let members = [
        ("name", text(&rule.name)),
        ("assert", Some(json_of_condition(&rule.condition))),
        ("message", text(&rule.message)),
    ];
    let present = members
        .into_iter()
        .filter_map(|(key, value)| Some((key.to_owned(), value?)));
    let mut written = String::new();
    write_json(&as_value(Data::Object(present.collect())), &mut written);
    written
}

fn as_value(data: Data) -> Value {
    Value { entry: 0, data }
}

fn object<const N: usize>(members: [(&str, Value); N]) -> Value {
    let members = members.map(|(key, value)| (key.to_owned(), value));
    as_value(Data::Object(members.into()))
}

fn json_of_condition(condition: &Condition) -> Value {
    let array = |values: Vec<Value>| as_value(Data::Array(values));
    let string = |text: &str| as_value(Data::String(text.to_owned()));
    let (number, operand) = match &condition.operator {
        Operator::Literal(truth) => return as_value(Data::Bool(*truth)),
        Operator::All(children) => (2, array(children.iter().map(json_of_condition).collect())),
        Operator::Any(children) => (3, array(children.iter().map(json_of_condition).collect())),
        Operator::Not(child) => (4, json_of_condition(child)),
        Operator::Exists(value) => (5, value.clone()),
        Operator::Pair(number, sides) => (usize::from(*number), array(sides.to_vec())),
        Operator::Compare(comparison, sides) => {
            let op = string(COMPARISONS[usize::from(*comparison) - 1]);
            let [left, right] = &**sides;
            let parts = [("left", left.clone()), ("op", op), ("right", right.clone())];
            (18, object(parts))
        }
        Operator::Truthy(value) => (19, value.clone()),
        Operator::Quantifier {
            operator,
            bind,
            over,
            body,
        } => {
            let body = json_of_condition(body);
            let parts = [("in", over.clone()), ("as", string(bind)), ("that", body)];
            (usize::from(*operator), object(parts))
        }
    };
    object([(OPERATORS[number - 2], operand)])
}
