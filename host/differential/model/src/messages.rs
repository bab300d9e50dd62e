//! The sentence of a defect (docs/FORMAT.md, "Messages"), from what stands at its place and the fault that was found there.

use super::checks::depth;
use super::paths::operator_name;
use super::trees::{Condition, Data, Field, Operator, Sheet, Value};
use super::walks::{content_key, split, Fault};

/// What a kind is called, and which names it may read, whatever table a call is lent.
const READERS: [(&str, &str); 8] = [
    (
        "an entity invariant",
        "$id, $entity, $version, $state, $fields, $fields.<path>",
    ),
    (
        "an operation precondition",
        "$id, $entity, $version, $from_state, $to_state, $args, $args.<path>, $fields, $fields.<path>, $old_fields, $old_fields.<path>",
    ),
    (
        "a creation event payload",
        "$id, $entity, $version, $state, $to_state, $fields, $fields.<path>",
    ),
    (
        "an operation template",
        "$id, $entity, $version, $state, $from_state, $to_state, $args, $args.<path>, $fields, $fields.<path>, $old_fields, $old_fields.<path>",
    ),
    (
        "an outcome selector",
        "$id, $entity, $version, $from_state, $args, $args.<path>, $fields, $fields.<path>",
    ),
    (
        "a creation outcome selector",
        "$id, $entity, $version, $args, $args.<path>",
    ),
    (
        "a creation outcome assignment",
        "$id, $entity, $version, $state, $to_state, $args, $args.<path>",
    ),
    (
        "a creation outcome template",
        "$id, $entity, $version, $state, $to_state, $args, $args.<path>, $fields, $fields.<path>",
    ),
];

/// What follows where an instant was expected.
const INSTANT_TAIL: &str = ", so the comparison would be unobservable at every evaluation; an operand of 'before'/'after' is either a '$' reference or a literal instant written `YYYY-MM-DD` or `YYYY-MM-DDTHH:MM:SS[.fff][Z]`, where a space may stand in for the `T` and an explicit offset is not read";

/// The message of a check that fails at a place with a fault.
pub fn message(kind: u64, rule: &Sheet, number: u32, place: u32, fault: &Fault) -> String {
    match (number, node(rule, place)) {
        (11, _) => "rule name cannot be empty".to_owned(),
        (12, _) => "rule message cannot be empty".to_owned(),
        (17, _) => ["left", "right"][fault.detail as usize - 1].to_owned(),
        (_, Some(Node::Condition(condition))) => of_condition(condition, number, fault),
        (_, Some(Node::Value(value))) => of_value(kind, value, number, fault),
        (_, None) => unreachable!("every other defect is at a condition or a value"),
    }
}

fn of_condition(condition: &Condition, number: u32, fault: &Fault) -> String {
    let name = operator_name(&condition.operator);
    match (number, &condition.operator) {
        (13, _) => depth(condition).to_string(),
        (15, _) => name.to_owned(),
        (16, _) => format!("'{name}' must contain at least one condition"),
        (21, Operator::Quantifier { bind, .. }) => bind.clone(),
        (22, Operator::Quantifier { over, .. }) => collection(over, fault),
        _ => unreachable!("no other defect is at a condition"),
    }
}

fn of_value(kind: u64, value: &Value, number: u32, fault: &Fault) -> String {
    let json = json(value);
    match (number, &value.data) {
        (14, _) => format!(
            "{json} is outside the source observation domain, so the comparison would be unevaluable at every evaluation"
        ),
        (18, Data::String(expression)) => reference(kind, expression, fault),
        (19, _) => format!(
            "{json} is not a string, so the rule would be false at every evaluation; quote it if it is meant as text"
        ),
        (20, Data::String(text)) if fault.detail == 1 => format!(
            "{json} escapes to the literal '{}', which is not an instant this kernel reads{INSTANT_TAIL}",
            &text[1..]
        ),
        (20, _) => format!("{json} is not an instant this kernel reads{INSTANT_TAIL}"),
        _ => unreachable!("no other defect is at a value"),
    }
}

fn reference(kind: u64, expression: &str, fault: &Fault) -> String {
    let (what, allowed) = READERS[kind as usize - 1];
    match fault.detail {
        11 => format!("'{expression}' is not available here; {what} may read {allowed}"),
        12 => {
            format!("'{expression}' is not a reference available here; {what} may read {allowed}")
        }
        _ => format!(
            "'{expression}' cannot resolve: {}",
            unresolved(expression, fault)
        ),
    }
}

/// Why a path leads nowhere.
fn unresolved(expression: &str, fault: &Fault) -> String {
    let (segment, rest) = split(fault.left);
    let (root, path) = split(&expression[1..]);
    let path = path.unwrap_or_default();
    if fault.detail == 1 {
        return "the path is empty".to_owned();
    }
    let Some(field) = fault.field else {
        let noun = if root == "args" { "argument" } else { "field" };
        return format!("unknown {noun} '{segment}'");
    };
    // What lies before the dot of the segment. It is told without its root, but with the name of a binder.
    let walked = if fault.is_bound { expression } else { path };
    let walked = &walked[..walked.len() - fault.left.len() - 1];
    let rest = rest.unwrap_or_default();
    let nowhere = format!("so '{segment}' resolves to nothing");
    match fault.detail {
        3 => format!("'{walked}' declares no property '{segment}'"),
        4 => format!(
            "'{walked}' is an array field, {nowhere}; an array addresses `count` or an element index"
        ),
        5 => format!(
            "'{walked}' is a map field, {nowhere}; a map's keys are not addressable and only `count` reads it"
        ),
        6 => format!("'{walked}.{segment}' is a count, so '{rest}' resolves to nothing"),
        7 => format!("'{walked}.{segment}' is the union's tag, so '{rest}' resolves to nothing"),
        8 => format!("'{walked}' is a union field, {nowhere}; {}", carried(field)),
        9 => format!(
            "'{walked}' is a {} field, {nowhere}; `count` reads a text, an array or a map",
            kind_name(field)
        ),
        10 => format!("'{walked}' is a {} field, {nowhere}", kind_name(field)),
        _ => unreachable!("no other detail is a walk's"),
    }
}

fn carried(union: &Field) -> String {
    let tag = union.tag.as_deref().unwrap_or_default();
    format!("it carries '{tag}' and '{}'", content_key(tag))
}

/// Why `in` is not a collection.
fn collection(over: &Value, fault: &Fault) -> String {
    let (segment, _) = split(fault.left);
    match (fault.detail, fault.field, &over.data) {
        (1, ..) => "`in` is a reference to an array or map field".to_owned(),
        (2, ..) => format!("nothing declares a property '{segment}'"),
        (3, Some(field), _) => format!("a {} field has no member '{segment}'", kind_name(field)),
        (4, Some(field), _) => format!(
            "it is a {} field, and a quantifier walks an array or a map",
            kind_name(field)
        ),
        (5, _, Data::String(text)) => format!("'{text}' is not a reference to a collection"),
        _ => unreachable!("no other detail is a collection's"),
    }
}

fn kind_name(field: &Field) -> &'static str {
    const NAMES: [&str; 12] = [
        "string", "integer", "number", "boolean", "enum", "array", "object", "json", "ref", "map",
        "union", "binary64",
    ];
    NAMES[usize::from(field.kind) - 1]
}

/// A value as compact JSON, members in their order and numbers as they are written.
fn json(value: &Value) -> String {
    match &value.data {
        Data::Null => "null".to_owned(),
        Data::Bool(truth) => truth.to_string(),
        Data::Number(text) => text.clone(),
        Data::String(text) => quoted(text),
        Data::Array(values) => {
            let values: Vec<String> = values.iter().map(json).collect();
            format!("[{}]", values.join(","))
        }
        Data::Object(members) => {
            let member =
                |(key, value): &(String, Value)| format!("{}:{}", quoted(key), json(value));
            let members: Vec<String> = members.iter().map(member).collect();
            format!("{{{}}}", members.join(","))
        }
    }
}

fn quoted(text: &str) -> String {
    let mut out = String::from('"');
    for character in text.chars() {
        match character {
            '"' => out.push_str("\\\""),
            '\\' => out.push_str("\\\\"),
            '\u{8}' => out.push_str("\\b"),
            '\t' => out.push_str("\\t"),
            '\n' => out.push_str("\\n"),
            '\u{c}' => out.push_str("\\f"),
            '\r' => out.push_str("\\r"),
            '\0'..'\u{20}' => out.push_str(&format!("\\u{:04x}", u32::from(character))),
            _ => out.push(character),
        }
    }
    out.push('"');
    out
}

enum Node<'t> {
    Condition(&'t Condition),
    Value(&'t Value),
}

/// The condition or value with that entry number.
fn node(sheet: &Sheet, place: u32) -> Option<Node<'_>> {
    match sheet {
        Sheet::Rule(rule) => in_condition(&rule.condition, place),
        Sheet::Template(value) => in_value(value, place),
    }
}

fn in_condition(condition: &Condition, place: u32) -> Option<Node<'_>> {
    if condition.entry == place {
        return Some(Node::Condition(condition));
    }
    match &condition.operator {
        Operator::Literal(_) => None,
        Operator::All(children) | Operator::Any(children) => {
            children.iter().find_map(|child| in_condition(child, place))
        }
        Operator::Not(child) => in_condition(child, place),
        Operator::Exists(value) | Operator::Truthy(value) => in_value(value, place),
        Operator::Pair(_, sides) | Operator::Compare(_, sides) => {
            sides.iter().find_map(|side| in_value(side, place))
        }
        Operator::Quantifier { over, body, .. } => {
            in_value(over, place).or_else(|| in_condition(body, place))
        }
    }
}

fn in_value(value: &Value, place: u32) -> Option<Node<'_>> {
    if value.entry == place {
        return Some(Node::Value(value));
    }
    match &value.data {
        Data::Array(values) => values.iter().find_map(|value| in_value(value, place)),
        Data::Object(members) => members.iter().find_map(|(_, value)| in_value(value, place)),
        _ => None,
    }
}
