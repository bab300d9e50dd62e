//! Finds the entry of a rule sheet that a place names.

use model::trees::{Condition, Data, Operator, Sheet, Value};

#[derive(Clone, Copy)]
pub enum Node<'a> {
    Condition(&'a Condition),
    Value(&'a Value),
}

/// The condition or value with that entry number; none for `R`, `T`, keys, and numbers past the sheet's end.
pub fn node(sheet: &Sheet, place: u32) -> Option<Node<'_>> {
    match sheet {
        Sheet::Rule(rule) => in_condition(&rule.condition, place),
        Sheet::Template(value) => in_value(value, place),
    }
}

fn in_condition(condition: &Condition, place: u32) -> Option<Node<'_>> {
    if condition.entry == place {
        return Some(Node::Condition(condition));
    }
    match &condition.operator {
        Operator::Literal(_) => None,
        Operator::All(children) | Operator::Any(children) => children.iter().find_map(|child| in_condition(child, place)),
        Operator::Not(child) => in_condition(child, place),
        Operator::Exists(value) | Operator::Truthy(value) => in_value(value, place),
        Operator::Pair(_, sides) | Operator::Compare(_, sides) => sides.iter().find_map(|side| in_value(side, place)),
        Operator::Quantifier { over, body, .. } => in_value(over, place).or_else(|| in_condition(body, place)),
    }
}

fn in_value(value: &Value, place: u32) -> Option<Node<'_>> {
    if value.entry == place {
        return Some(Node::Value(value));
    }
    match &value.data {
        Data::Array(values) => values.iter().find_map(|member| in_value(member, place)),
        Data::Object(members) => members.iter().find_map(|(_, member)| in_value(member, place)),
        _ => None,
    }
}

/// How many entries the sheet has: the last condition or value is the last entry.
pub fn entries(sheet: &Sheet) -> u32 {
    match sheet {
        Sheet::Rule(rule) => last_of_condition(&rule.condition),
        Sheet::Template(value) => last_of_value(value),
    }
}

fn last_of_condition(condition: &Condition) -> u32 {
    match &condition.operator {
        Operator::Literal(_) => condition.entry,
        Operator::All(children) | Operator::Any(children) => children.last().map_or(condition.entry, last_of_condition),
        Operator::Not(child) => last_of_condition(child),
        Operator::Exists(value) | Operator::Truthy(value) => last_of_value(value),
        Operator::Pair(_, sides) | Operator::Compare(_, sides) => last_of_value(&sides[1]),
        Operator::Quantifier { body, .. } => last_of_condition(body),
    }
}

fn last_of_value(value: &Value) -> u32 {
    match &value.data {
        Data::Array(values) => values.last().map_or(value.entry, last_of_value),
        Data::Object(members) => members.last().map_or(value.entry, |(_, member)| last_of_value(member)),
        _ => value.entry,
    }
}
