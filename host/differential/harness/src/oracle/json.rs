//! Rules as JSON by serde_json on the Rust's own types. Habits in which serde_json differs from RFC 8259 or document 02 are applied here, or the text
//! is kept out; there are no others:
//!
//! - applied: a key that stands twice in one object (31; serde_json takes the last), arrays and objects more than 1,024 deep (31; without its own limit
//!   serde_json takes any), `-0` (read as `0`), and numbers under `compare` or a quantifier (some are spelled anew);
//! - kept out: a rule as an array of its members, a comparison as `{"eq":null}`, an object whose first key is the one by which serde_json tells numbers.

use super::convert;
use cases::limits::MAX_JSON_NESTING;
use entity_core::RuleDefinition;
use model::trees::{Condition, Data, Operator, Rule, Value};
use serde::de::{Deserialize, Deserializer, MapAccess, SeqAccess, Visitor};
use serde_json::Number;
use std::collections::HashSet;
use std::fmt;

/// What serde_json makes of a text.
pub enum Reading {
    KeptOut(&'static str),
    /// No rule: 31.
    None,
    Rule(Box<RuleDefinition>),
}

/// The first key of an object that serde_json takes for a number.
pub const NUMBER_KEY: &str = "$serde_json::private::Number";

/// Reads a text. An error is a finding: what is no JSON for serde_json is a rule for it.
pub fn read(text: &[u8]) -> Result<Reading, String> {
    let rule = whole::<RuleDefinition>(text);
    if has_text(text, NUMBER_KEY) && model::json::document(text).is_some_and(|value| begins_with_number_key(&value)) {
        return Ok(Reading::KeptOut("an object that begins with the key of numbers"));
    }
    let Ok(tree) = whole::<Tree>(text) else {
        return if rule.is_err() { Ok(Reading::None) } else { Err("serde_json reads a rule and no JSON".to_owned()) };
    };
    Ok(match rule {
        _ if tree.nesting() > MAX_JSON_NESTING || !tree.is_distinct() => Reading::None,
        _ if matches!(tree, Tree::Array(_)) => Reading::KeptOut("a rule as an array"),
        _ if tree.compares_by_object() => Reading::KeptOut("a comparison as an object"),
        Ok(rule) => Reading::Rule(Box::new(rule)),
        Err(_) => Reading::None,
    })
}

/// The whole text as one value, however deep.
fn whole<'t, T: Deserialize<'t>>(text: &'t [u8]) -> Result<T, serde_json::Error> {
    let mut deserializer = serde_json::Deserializer::from_slice(text);
    deserializer.disable_recursion_limit();
    let value = T::deserialize(&mut deserializer)?;
    deserializer.end()?;
    Ok(value)
}

/// Whether a key may be in a text: its last letters are, or an escape is.
fn has_text(text: &[u8], key: &str) -> bool {
    let end = &key.as_bytes()[key.len() - 6..];
    text.windows(end.len()).any(|window| window == end) || text.windows(2).any(|window| window == b"\\u")
}

fn begins_with_number_key(value: &Value) -> bool {
    match &value.data {
        Data::Array(values) => values.iter().any(begins_with_number_key),
        Data::Object(members) => {
            members.first().is_some_and(|(key, _)| key == NUMBER_KEY) || members.iter().any(|(_, value)| begins_with_number_key(value))
        }
        _ => false,
    }
}

/// JSON as serde_json reads it, with every member that it meets.
enum Tree {
    Null,
    Scalar,
    Array(Vec<Tree>),
    Object(Vec<(String, Tree)>),
}

impl Tree {
    fn held(&self) -> Box<dyn Iterator<Item = &Tree> + '_> {
        match self {
            Self::Null | Self::Scalar => Box::new(std::iter::empty()),
            Self::Array(values) => Box::new(values.iter()),
            Self::Object(members) => Box::new(members.iter().map(|(_, value)| value)),
        }
    }

    fn nesting(&self) -> usize {
        let own = usize::from(matches!(self, Self::Array(_) | Self::Object(_)));
        own + self.held().map(Self::nesting).max().unwrap_or(0)
    }

    fn is_distinct(&self) -> bool {
        let own = match self {
            Self::Object(members) => members.iter().map(|(key, _)| key).collect::<HashSet<_>>().len() == members.len(),
            _ => true,
        };
        own && self.held().all(Self::is_distinct)
    }

    fn member(&self, name: &str) -> Option<&Tree> {
        match self {
            Self::Object(members) => members.iter().find(|(key, _)| key == name).map(|(_, value)| value),
            _ => None,
        }
    }

    /// Whether a `compare` has an `op` that is an object with one member, null.
    fn compares_by_object(&self) -> bool {
        let op = self.member("compare").and_then(|compare| compare.member("op"));
        let is_object = matches!(op, Some(Tree::Object(members)) if matches!(members[..], [(_, Tree::Null)]));
        is_object || self.held().any(Self::compares_by_object)
    }
}

impl<'de> Deserialize<'de> for Tree {
    fn deserialize<D: Deserializer<'de>>(deserializer: D) -> Result<Self, D::Error> {
        deserializer.deserialize_any(TreeVisitor)
    }
}

struct TreeVisitor;

impl<'de> Visitor<'de> for TreeVisitor {
    type Value = Tree;

    fn expecting(&self, out: &mut fmt::Formatter<'_>) -> fmt::Result {
        out.write_str("JSON")
    }

    fn visit_unit<E>(self) -> Result<Tree, E> {
        Ok(Tree::Null)
    }

    fn visit_bool<E>(self, _: bool) -> Result<Tree, E> {
        Ok(Tree::Scalar)
    }

    fn visit_u64<E>(self, _: u64) -> Result<Tree, E> {
        Ok(Tree::Scalar)
    }

    fn visit_i64<E>(self, _: i64) -> Result<Tree, E> {
        Ok(Tree::Scalar)
    }

    fn visit_str<E>(self, _: &str) -> Result<Tree, E> {
        Ok(Tree::Scalar)
    }

    fn visit_seq<A: SeqAccess<'de>>(self, mut elements: A) -> Result<Tree, A::Error> {
        let mut values = Vec::new();
        while let Some(value) = elements.next_element()? {
            values.push(value);
        }
        Ok(Tree::Array(values))
    }

    /// Numbers that no integer of 64 bits is come as objects of one key.
    fn visit_map<A: MapAccess<'de>>(self, mut map: A) -> Result<Tree, A::Error> {
        let mut members = Vec::new();
        while let Some(key) = map.next_key::<String>()? {
            let value = map.next_value()?;
            if members.is_empty() && key == NUMBER_KEY {
                return Ok(Tree::Scalar);
            }
            members.push((key, value));
        }
        Ok(Tree::Object(members))
    }
}

/// The rule with its numbers as serde_json spells them, in the Rust's types.
pub fn spelled(rule: &Rule) -> RuleDefinition {
    convert::rule(&respelled(rule))
}

/// The rule with its numbers as serde_json spells them.
pub fn respelled(rule: &Rule) -> Rule {
    Rule { condition: in_condition(&rule.condition, false), ..rule.clone() }
}

/// What lies under `compare` or a quantifier goes through a `Value` once more.
fn in_condition(condition: &Condition, again: bool) -> Condition {
    let sides = |sides: &[Value; 2], again| Box::new([in_value(&sides[0], again), in_value(&sides[1], again)]);
    let children = |children: &[Condition]| children.iter().map(|child| in_condition(child, again)).collect();
    let operator = match &condition.operator {
        Operator::Literal(truth) => Operator::Literal(*truth),
        Operator::All(inner) => Operator::All(children(inner)),
        Operator::Any(inner) => Operator::Any(children(inner)),
        Operator::Not(child) => Operator::Not(Box::new(in_condition(child, again))),
        Operator::Exists(value) => Operator::Exists(in_value(value, again)),
        Operator::Truthy(value) => Operator::Truthy(in_value(value, again)),
        Operator::Pair(operator, values) => Operator::Pair(*operator, sides(values, again)),
        Operator::Compare(comparison, values) => Operator::Compare(*comparison, sides(values, true)),
        Operator::Quantifier { operator, bind, over, body } => Operator::Quantifier {
            operator: *operator,
            bind: bind.clone(),
            over: in_value(over, true),
            body: Box::new(in_condition(body, true)),
        },
    };
    Condition { entry: condition.entry, operator }
}

fn in_value(value: &Value, again: bool) -> Value {
    let data = match &value.data {
        Data::Number(text) => Data::Number(number(text, again)),
        Data::Array(values) => Data::Array(values.iter().map(|value| in_value(value, again)).collect()),
        Data::Object(members) => Data::Object(members.iter().map(|(key, value)| (key.clone(), in_value(value, again))).collect()),
        other => other.clone(),
    };
    Value { entry: value.entry, data }
}

fn number(text: &str, again: bool) -> String {
    let once = if text == "-0" { "0" } else { text };
    if !again {
        return once.to_owned();
    }
    let value = serde_json::Value::Number(Number::from_string_unchecked(once.to_owned()));
    serde_json::from_value::<serde_json::Value>(value).map_or_else(|error| error.to_string(), |value| value.to_string())
}

/// A rule as serde_json writes it, but for absent members, which it writes as null, and for its short escapes.
pub fn written(rule: &Rule) -> String {
    let text = serde_json::to_string(&convert::rule(rule)).expect("a rule can be written");
    let text = match text.strip_prefix("{\"name\":null,") {
        Some(rest) => format!("{{{rest}"),
        None => text,
    };
    // A message that is there ends with a quotation mark.
    let text = match text.strip_suffix(",\"message\":null}") {
        Some(rest) => format!("{rest}}}"),
        None => text,
    };
    without_short_escapes(&text)
}

fn without_short_escapes(text: &str) -> String {
    let (mut plain, mut letters) = (String::new(), text.chars());
    while let Some(letter) = letters.next() {
        let escape = (letter == '\\').then(|| letters.next()).flatten();
        match escape {
            None => plain.push(letter),
            Some('b') => plain.push_str("\\u0008"),
            Some('t') => plain.push_str("\\u0009"),
            Some('n') => plain.push_str("\\u000a"),
            Some('f') => plain.push_str("\\u000c"),
            Some('r') => plain.push_str("\\u000d"),
            Some(other) => plain.extend(['\\', other]),
        }
    }
    plain
}
