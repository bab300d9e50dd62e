//! A second reading of the check list: only numbers and places, in their order. The Rust does not count checks, so the model's passed count is
//! compared with this.

use model::trees::{Condition, Data, Operator, Sheet, Value};

/// The number that a check fails with, and its place.
pub type Planned = (u32, u32);

/// Every check of a rule or template, in order.
pub fn plan(sheet: &Sheet, service: bool) -> Vec<Planned> {
    let mut list = Vec::new();
    match sheet {
        Sheet::Template(value) => references(value, &mut list),
        Sheet::Rule(rule) => {
            list.extend([(11, 1), (12, 1), (13, 2)]);
            if service {
                literals(&rule.condition, &mut list);
            }
            body(&rule.condition, &mut list);
        }
    }
    list
}

/// The entries of a value that a test picks, each with the number.
fn scan(value: &Value, number: u32, picks: fn(&Data) -> bool, list: &mut Vec<Planned>) {
    if picks(&value.data) {
        list.push((number, value.entry));
    }
    match &value.data {
        Data::Array(values) => values.iter().for_each(|member| scan(member, number, picks, list)),
        Data::Object(members) => members.iter().for_each(|(_, member)| scan(member, number, picks, list)),
        _ => {}
    }
}

fn references(value: &Value, list: &mut Vec<Planned>) {
    let is_reference = |data: &Data| matches!(data, Data::String(text) if text.starts_with('$') && text.as_bytes().get(1) != Some(&b'$'));
    scan(value, 18, is_reference, list);
}

fn numbers(value: &Value, list: &mut Vec<Planned>) {
    scan(value, 14, |data| matches!(data, Data::Number(_)), list);
}

/// The literal pass.
fn literals(condition: &Condition, list: &mut Vec<Planned>) {
    match &condition.operator {
        Operator::All(children) | Operator::Any(children) => children.iter().for_each(|child| literals(child, list)),
        Operator::Not(child) | Operator::Quantifier { body: child, .. } => literals(child, list),
        Operator::Pair(6 | 7 | 16 | 17, _) | Operator::Exists(_) | Operator::Literal(_) => {}
        Operator::Pair(_, sides) | Operator::Compare(_, sides) => sides.iter().for_each(|side| numbers(side, list)),
        Operator::Truthy(value) => numbers(value, list),
    }
}

fn body(condition: &Condition, list: &mut Vec<Planned>) {
    list.push((15, condition.entry));
    match &condition.operator {
        Operator::Literal(_) => {}
        Operator::Not(child) => body(child, list),
        Operator::All(children) | Operator::Any(children) => {
            list.push((16, condition.entry));
            children.iter().for_each(|child| body(child, list));
        }
        Operator::Exists(value) | Operator::Truthy(value) => references(value, list),
        Operator::Compare(_, sides) => sides.iter().for_each(|side| {
            list.push((17, side.entry));
            references(side, list);
        }),
        Operator::Pair(operator, sides) => sides.iter().for_each(|side| operand(*operator, side, list)),
        Operator::Quantifier { over, body: inner, .. } => {
            list.push((21, condition.entry));
            references(over, list);
            list.push((22, condition.entry));
            body(inner, list);
        }
    }
}

/// References, then the form where the operator asks for one.
fn operand(operator: u8, side: &Value, list: &mut Vec<Planned>) {
    references(side, list);
    match operator {
        6 | 7 => list.push((20, side.entry)),
        16 | 17 => list.push((19, side.entry)),
        _ => {}
    }
}
