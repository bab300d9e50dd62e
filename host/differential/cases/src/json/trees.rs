//! The JSON tree of a rule: members in definition.rs's order, which the writer may change.

use crate::generate::build::{array, object, text, value};
use model::trees::{Condition, Data, Operator, Rule, Value};

/// The names of operators 6 to 17.
const PAIRS: [&str; 12] = ["before", "after", "eq", "ne", "gt", "gte", "lt", "lte", "in", "contains", "starts_with", "ends_with"];

/// What `compare` compares by, from 1.
pub const COMPARISONS: [&str; 6] = ["eq", "ne", "lt", "lte", "gt", "gte"];

/// An object, its members in the order given; a key may stand twice.
pub fn members(members: Vec<(&str, Value)>) -> Value {
    value(Data::Object(members.into_iter().map(|(key, value)| (key.to_owned(), value)).collect()))
}

pub fn of_rule(rule: &Rule) -> Value {
    let heading = |key: &'static str, heading: &Option<String>| heading.as_ref().map(|words| (key, text(words)));
    let assert = Some(("assert", of_condition(&rule.condition)));
    members([heading("name", &rule.name), assert, heading("message", &rule.message)].into_iter().flatten().collect())
}

pub fn of_condition(condition: &Condition) -> Value {
    let (name, operand) = match &condition.operator {
        Operator::Literal(truth) => return value(Data::Bool(*truth)),
        Operator::All(children) => ("all", array(children.iter().map(of_condition).collect())),
        Operator::Any(children) => ("any", array(children.iter().map(of_condition).collect())),
        Operator::Not(child) => ("not", of_condition(child)),
        Operator::Exists(operand) => ("exists", operand.clone()),
        Operator::Truthy(operand) => ("truthy", operand.clone()),
        Operator::Pair(operator, sides) => (PAIRS[usize::from(*operator) - 6], array(sides.to_vec())),
        Operator::Compare(comparison, sides) => {
            ("compare", compared(sides[0].clone(), text(COMPARISONS[usize::from(*comparison) - 1]), sides[1].clone()))
        }
        Operator::Quantifier { operator, bind, over, body } => {
            (if *operator == 20 { "for_all" } else { "for_any" }, quantified(over.clone(), text(bind), of_condition(body)))
        }
    };
    object(vec![(name.to_owned(), operand)])
}

pub fn compared(left: Value, op: Value, right: Value) -> Value {
    members(vec![("left", left), ("op", op), ("right", right)])
}

pub fn quantified(over: Value, bind: Value, body: Value) -> Value {
    members(vec![("in", over), ("as", bind), ("that", body)])
}
