//! JSON trees written as text: with white space, escapes and an order of members that a person or a program may choose.

use super::trees;
use crate::generate::build::value;
use crate::random::Random;
use model::trees::{Condition, Data, Operator, Rule, Value};

/// How a text is written; each number is how often in a hundred.
#[derive(Clone, Copy)]
pub struct Style {
    /// White space before or after a token.
    space: usize,
    /// A character that needs no escape has one.
    escape: usize,
    /// The members of a rule, a comparison or a quantifier stand in another order.
    order: usize,
    /// An absent name or message is null.
    null: usize,
}

/// No white space, no escape that is not needed, members in definition.rs's order.
pub const COMPACT: Style = Style { space: 0, escape: 0, order: 0, null: 0 };

impl Style {
    pub fn any(random: &mut Random) -> Self {
        let mut often = |most: usize| if random.chance(40) { 0 } else { random.between(1, most) };
        Self { space: often(60), escape: often(40), order: often(100), null: often(100) }
    }

    /// The text of a rule.
    pub fn rule(self, random: &mut Random, rule: &Rule) -> Vec<u8> {
        let mut tree = trees::of_rule(rule);
        self.add_nulls(random, &mut tree);
        self.reorder(random, &mut tree);
        if let Some(assert) = member(&mut tree, "assert") {
            self.reorder_within(random, assert, &rule.condition);
        }
        self.text(random, &tree)
    }

    /// The text of any tree.
    pub fn text(self, random: &mut Random, tree: &Value) -> Vec<u8> {
        let mut text = String::new();
        self.write(random, tree, &mut text);
        self.space(random, &mut text);
        text.into_bytes()
    }

    fn add_nulls(self, random: &mut Random, tree: &mut Value) {
        let Data::Object(members) = &mut tree.data else { return };
        for name in ["name", "message"] {
            if random.chance(self.null) && members.iter().all(|(key, _)| key != name) {
                members.push((name.to_owned(), value(Data::Null)));
            }
        }
    }

    fn reorder(self, random: &mut Random, tree: &mut Value) {
        if let Data::Object(members) = &mut tree.data {
            if random.chance(self.order) {
                random.shuffle(members);
            }
        }
    }

    /// The members of an object value keep their order: it is part of the sheet.
    fn reorder_within(self, random: &mut Random, tree: &mut Value, condition: &Condition) {
        let Data::Object(members) = &mut tree.data else { return };
        let Some((_, operand)) = members.first_mut() else { return };
        match (&condition.operator, &mut operand.data) {
            (Operator::All(children) | Operator::Any(children), Data::Array(trees)) => {
                trees.iter_mut().zip(children).for_each(|(tree, child)| self.reorder_within(random, tree, child));
            }
            (Operator::Not(child), _) => self.reorder_within(random, operand, child),
            (Operator::Compare(..), _) => self.reorder(random, operand),
            (Operator::Quantifier { body, .. }, _) => {
                self.reorder(random, operand);
                if let Some(that) = member(operand, "that") {
                    self.reorder_within(random, that, body);
                }
            }
            _ => {}
        }
    }

    fn write(self, random: &mut Random, tree: &Value, text: &mut String) {
        self.space(random, text);
        match &tree.data {
            Data::Null => text.push_str("null"),
            Data::Bool(truth) => text.push_str(if *truth { "true" } else { "false" }),
            Data::Number(number) => text.push_str(number),
            Data::String(string) => self.string(random, string, text),
            Data::Array(values) => {
                text.push('[');
                for (index, value) in values.iter().enumerate() {
                    self.comma(random, index, text);
                    self.write(random, value, text);
                }
                self.space(random, text);
                text.push(']');
            }
            Data::Object(members) => {
                text.push('{');
                for (index, (key, value)) in members.iter().enumerate() {
                    self.comma(random, index, text);
                    self.space(random, text);
                    self.string(random, key, text);
                    self.space(random, text);
                    text.push(':');
                    self.write(random, value, text);
                }
                self.space(random, text);
                text.push('}');
            }
        }
    }

    fn comma(self, random: &mut Random, index: usize, text: &mut String) {
        if index > 0 {
            self.space(random, text);
            text.push(',');
        }
    }

    fn space(self, random: &mut Random, text: &mut String) {
        while random.chance(self.space) {
            text.push(random.pick(&[' ', ' ', '\t', '\n', '\r']));
        }
    }

    fn string(self, random: &mut Random, string: &str, text: &mut String) {
        text.push('"');
        for character in string.chars() {
            let short = match character {
                '"' | '\\' | '/' => Some(character),
                '\u{8}' => Some('b'),
                '\u{C}' => Some('f'),
                '\n' => Some('n'),
                '\r' => Some('r'),
                '\t' => Some('t'),
                _ => None,
            };
            let is_free = !matches!(character, '"' | '\\' | '\0'..='\u{1F}');
            match short {
                _ if is_free && !random.chance(self.escape) => text.push(character),
                Some(letter) if random.chance(60) => text.extend(['\\', letter]),
                _ => units(random, character, text),
            }
        }
        text.push('"');
    }
}

fn member<'t>(tree: &'t mut Value, name: &str) -> Option<&'t mut Value> {
    match &mut tree.data {
        Data::Object(members) => members.iter_mut().find(|(key, _)| key == name).map(|(_, value)| value),
        _ => None,
    }
}

/// The escape of each UTF-16 unit by its four digits, in either case.
fn units(random: &mut Random, character: char, text: &mut String) {
    for unit in character.encode_utf16(&mut [0; 2]) {
        let digits = format!("{unit:04x}");
        text.push_str("\\u");
        text.extend(digits.chars().map(|digit| if random.chance(50) { digit.to_ascii_uppercase() } else { digit }));
    }
}
