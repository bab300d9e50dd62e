//! From the trees of the sheets to the Rust's own types.

use entity_core::{CompareOp, Comparison, Condition, FieldDefinition, FieldKind, ObjectSchema, Quantifier, RuleDefinition};
use model::trees;
use serde_json::{Number, Value};
use std::collections::BTreeMap;

pub struct Schemas {
    pub fields: ObjectSchema,
    pub args: Option<ObjectSchema>,
}

pub fn schemas(schema: &trees::Schema) -> Schemas {
    Schemas { fields: object(&schema.record), args: schema.arguments.as_ref().map(object) }
}

fn object(holder: &trees::Holder) -> ObjectSchema {
    ObjectSchema { fields: members(&holder.fields), additional_fields: holder.open }
}

fn members(fields: &[trees::Field]) -> BTreeMap<String, FieldDefinition> {
    fields.iter().map(|field| (field.name.clone(), definition(field))).collect()
}

fn definition(field: &trees::Field) -> FieldDefinition {
    FieldDefinition {
        kind: field_kind(field.kind),
        items: field.items.as_deref().map(|items| Box::new(definition(items))),
        properties: members(&field.properties),
        additional_properties: field.open,
        tag: field.tag.clone(),
        ..FieldDefinition::default()
    }
}

fn field_kind(number: u8) -> FieldKind {
    match number {
        1 => FieldKind::String,
        2 => FieldKind::Integer,
        3 => FieldKind::Number,
        4 => FieldKind::Boolean,
        5 => FieldKind::Enum,
        6 => FieldKind::Array,
        7 => FieldKind::Object,
        8 => FieldKind::Json,
        9 => FieldKind::Ref,
        10 => FieldKind::Map,
        11 => FieldKind::Union,
        12 => FieldKind::Binary64,
        _ => unreachable!("a decoded field has a kind from 1 to 12"),
    }
}

pub fn rule(rule: &trees::Rule) -> RuleDefinition {
    RuleDefinition { name: rule.name.clone(), condition: condition(&rule.condition), message: rule.message.clone() }
}

fn condition(tree: &trees::Condition) -> Condition {
    match &tree.operator {
        trees::Operator::Literal(truth) => Condition::Literal(*truth),
        trees::Operator::All(children) => Condition::All { all: conditions(children) },
        trees::Operator::Any(children) => Condition::Any { any: conditions(children) },
        trees::Operator::Not(child) => Condition::Not { not: Box::new(condition(child)) },
        trees::Operator::Exists(operand) => Condition::Exists { exists: value(operand) },
        trees::Operator::Pair(operator, sides) => pair(*operator, [value(&sides[0]), value(&sides[1])]),
        trees::Operator::Compare(op, sides) => {
            Condition::Compare { compare: Box::new(Comparison { left: value(&sides[0]), op: compare_op(*op), right: value(&sides[1]) }) }
        }
        trees::Operator::Truthy(operand) => Condition::Truthy { truthy: value(operand) },
        trees::Operator::Quantifier { operator, bind, over, body } => {
            quantifier(*operator, Quantifier { over: value(over), bind: bind.clone(), body: Box::new(condition(body)) })
        }
    }
}

fn conditions(children: &[trees::Condition]) -> Vec<Condition> {
    children.iter().map(condition).collect()
}

fn pair(operator: u8, pair: [Value; 2]) -> Condition {
    match operator {
        6 => Condition::Before { before: pair },
        7 => Condition::After { after: pair },
        8 => Condition::Eq { eq: pair },
        9 => Condition::Ne { ne: pair },
        10 => Condition::Gt { gt: pair },
        11 => Condition::Gte { gte: pair },
        12 => Condition::Lt { lt: pair },
        13 => Condition::Lte { lte: pair },
        14 => Condition::In { values: pair },
        15 => Condition::Contains { contains: pair },
        16 => Condition::StartsWith { starts_with: pair },
        17 => Condition::EndsWith { ends_with: pair },
        _ => unreachable!("a decoded pair has an operator from 6 to 17"),
    }
}

fn compare_op(number: u8) -> CompareOp {
    match number {
        1 => CompareOp::Eq,
        2 => CompareOp::Ne,
        3 => CompareOp::Lt,
        4 => CompareOp::Lte,
        5 => CompareOp::Gt,
        6 => CompareOp::Gte,
        _ => unreachable!("a decoded comparison is from 1 to 6"),
    }
}

fn quantifier(operator: u8, quantifier: Quantifier) -> Condition {
    match operator {
        20 => Condition::ForAll { for_all: Box::new(quantifier) },
        21 => Condition::ForAny { for_any: Box::new(quantifier) },
        _ => unreachable!("a decoded quantifier has the operator 20 or 21"),
    }
}

/// The value, its numbers kept as they are written.
pub fn value(tree: &trees::Value) -> Value {
    match &tree.data {
        trees::Data::Null => Value::Null,
        trees::Data::Bool(truth) => Value::Bool(*truth),
        trees::Data::Number(text) => Value::Number(Number::from_string_unchecked(text.clone())),
        trees::Data::String(text) => Value::String(text.clone()),
        trees::Data::Array(values) => Value::Array(values.iter().map(value).collect()),
        trees::Data::Object(members) => Value::Object(members.iter().map(|(key, member)| (key.clone(), value(member))).collect()),
    }
}
