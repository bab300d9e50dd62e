//! Short ways to build trees. Entry numbers are given when a sheet is read, so they are 0 here.

use model::trees::{Condition, Data, Field, Holder, Operator, Rule, Schema, Sheet, Value};
use std::collections::{BTreeMap, HashSet};

pub const STRING: u8 = 1;
pub const INTEGER: u8 = 2;
pub const ARRAY: u8 = 6;
pub const OBJECT: u8 = 7;
pub const JSON: u8 = 8;
pub const MAP: u8 = 10;
pub const UNION: u8 = 11;

pub fn field(name: &str, kind: u8) -> Field {
    Field { entry: 0, name: name.to_owned(), kind, open: false, tag: None, items: None, properties: Vec::new() }
}

/// An element, which has no name.
pub fn element(field: Field) -> Option<Box<Field>> {
    Some(Box::new(Field { name: String::new(), ..field }))
}

/// The fields in the order of a sheet, a later one taking the place of an earlier one with its name.
pub fn sorted(fields: Vec<Field>) -> Vec<Field> {
    let by_name: BTreeMap<String, Field> = fields.into_iter().map(|field| (field.name.clone(), field)).collect();
    by_name.into_values().collect()
}

pub fn holder(open: bool, fields: Vec<Field>) -> Holder {
    Holder { open, fields: sorted(fields) }
}

pub fn schema(record: Holder, arguments: Option<Holder>) -> Schema {
    Schema { record, arguments }
}

pub fn value(data: Data) -> Value {
    Value { entry: 0, data }
}

pub fn text(text: &str) -> Value {
    value(Data::String(text.to_owned()))
}

pub fn number(text: &str) -> Value {
    value(Data::Number(text.to_owned()))
}

pub fn array(values: Vec<Value>) -> Value {
    value(Data::Array(values))
}

/// An object, its members in the order given. Of members with one key the first stays.
pub fn object(mut members: Vec<(String, Value)>) -> Value {
    let mut met = HashSet::new();
    members.retain(|(key, _)| met.insert(key.clone()));
    value(Data::Object(members))
}

pub fn condition(operator: Operator) -> Condition {
    Condition { entry: 0, operator }
}

pub fn literal(truth: bool) -> Condition {
    condition(Operator::Literal(truth))
}

pub fn not(child: Condition) -> Condition {
    condition(Operator::Not(Box::new(child)))
}

pub fn all(children: Vec<Condition>) -> Condition {
    condition(Operator::All(children))
}

pub fn exists(operand: Value) -> Condition {
    condition(Operator::Exists(operand))
}

pub fn pair(operator: u8, left: Value, right: Value) -> Condition {
    condition(Operator::Pair(operator, Box::new([left, right])))
}

pub fn compare(comparison: u8, left: Value, right: Value) -> Condition {
    condition(Operator::Compare(comparison, Box::new([left, right])))
}

pub fn quantifier(operator: u8, bind: &str, over: Value, body: Condition) -> Condition {
    condition(Operator::Quantifier { operator, bind: bind.to_owned(), over, body: Box::new(body) })
}

pub fn rule(condition: Condition) -> Sheet {
    Sheet::Rule(Rule { name: None, message: None, condition })
}
