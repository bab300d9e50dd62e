//! Cases whose names get characters that a message quotes and JSON escapes.

use crate::case::Case;
use crate::generate::build::sorted;
use crate::random::Random;
use model::trees::{Condition, Data, Field, Holder, Operator, Rule, Schema, Sheet, Value};
use model::{decode_rule, decode_schema, write_rule, write_schema};
use std::collections::BTreeMap;

/// Names of generated cases that mean nothing by themselves.
const PLAIN: [&str; 18] =
    ["a", "b", "c", "d", "x", "xb", "t", "q", "w", "k", "zz", "parr", "pobjs", "pmap", "puni", "pstr", "pobj", "pint"];

/// Characters that a name can have besides; no letters or digits, and no dot.
const ODD: [char; 20] = [
    '\'',
    '\'',
    '"',
    '\\',
    '\n',
    '\t',
    '\r',
    '\u{8}',
    '\u{c}',
    '\0',
    '\u{1}',
    '\u{b}',
    '\u{1b}',
    '\u{1f}',
    '\u{7f}',
    '/',
    '`',
    '\u{2028}',
    'é',
    '\u{1f9f5}',
];

/// The plain names with odd characters around them, the same everywhere in a case.
struct Names(BTreeMap<&'static str, String>);

impl Names {
    fn new(random: &mut Random) -> Self {
        let mut odd = |most: usize| -> String { (0..random.between(0, most)).map(|_| random.pick(&ODD)).collect() };
        Self(PLAIN.into_iter().map(|name| (name, format!("{}{name}{}", odd(2), odd(4)))).collect())
    }

    fn name(&self, name: &str) -> String {
        self.0.get(name).map_or_else(|| name.to_owned(), String::clone)
    }

    /// A text with its names, which come after its first character, whatever that is.
    fn text(&self, text: &str) -> String {
        match (text.get(..1), text.get(1..)) {
            (Some(first), Some(path)) => {
                let path: Vec<String> = path.split('.').map(|segment| self.name(segment)).collect();
                format!("{first}{}", path.join("."))
            }
            _ => text.to_owned(),
        }
    }

    fn schema(&self, schema: &Schema) -> Schema {
        let holder = |holder: &Holder| Holder { open: holder.open, fields: self.fields(&holder.fields) };
        Schema { record: holder(&schema.record), arguments: schema.arguments.as_ref().map(holder) }
    }

    fn fields(&self, fields: &[Field]) -> Vec<Field> {
        sorted(fields.iter().map(|field| self.field(field)).collect())
    }

    fn field(&self, field: &Field) -> Field {
        Field {
            name: self.name(&field.name),
            tag: field.tag.as_deref().map(|tag| self.name(tag)),
            items: field.items.as_deref().map(|items| Box::new(self.field(items))),
            properties: self.fields(&field.properties),
            ..field.clone()
        }
    }

    fn sheet(&self, sheet: &Sheet) -> Sheet {
        match sheet {
            Sheet::Rule(rule) => Sheet::Rule(Rule { condition: self.condition(&rule.condition), ..rule.clone() }),
            Sheet::Template(value) => Sheet::Template(self.value(value)),
        }
    }

    fn condition(&self, condition: &Condition) -> Condition {
        let conditions = |children: &[Condition]| children.iter().map(|child| self.condition(child)).collect();
        let pair = |sides: &[Value; 2]| Box::new([self.value(&sides[0]), self.value(&sides[1])]);
        let operator = match &condition.operator {
            Operator::Literal(truth) => Operator::Literal(*truth),
            Operator::All(children) => Operator::All(conditions(children)),
            Operator::Any(children) => Operator::Any(conditions(children)),
            Operator::Not(child) => Operator::Not(Box::new(self.condition(child))),
            Operator::Exists(value) => Operator::Exists(self.value(value)),
            Operator::Truthy(value) => Operator::Truthy(self.value(value)),
            Operator::Pair(number, sides) => Operator::Pair(*number, pair(sides)),
            Operator::Compare(op, sides) => Operator::Compare(*op, pair(sides)),
            Operator::Quantifier { operator, bind, over, body } => Operator::Quantifier {
                operator: *operator,
                bind: self.name(bind),
                over: self.value(over),
                body: Box::new(self.condition(body)),
            },
        };
        Condition { operator, ..*condition }
    }

    fn value(&self, value: &Value) -> Value {
        let data = match &value.data {
            Data::String(text) => Data::String(self.text(text)),
            Data::Array(values) => Data::Array(values.iter().map(|value| self.value(value)).collect()),
            Data::Object(members) => Data::Object(members.iter().map(|(key, value)| (self.name(key), self.value(value))).collect()),
            other => other.clone(),
        };
        Value { data, ..*value }
    }
}

/// The case with other names, and so with the same number and detail; as it was where it has no trees or grows past a limit.
pub fn renamed(random: &mut Random, case: Case) -> Case {
    let names = Names::new(random);
    let trees = decode_schema(&case.schema).zip(decode_rule(&case.rule));
    let sheets = trees.map(|(schema, sheet)| (write_schema(&names.schema(&schema)), write_rule(&names.sheet(&sheet))));
    match sheets.filter(|(schema, rule)| decode_schema(schema).is_some() && decode_rule(rule).is_some()) {
        Some((schema, rule)) => Case { schema, rule, ..case },
        None => case,
    }
}
