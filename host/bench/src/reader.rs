//! Sheets read straight into the types that the Rust validates: what a host without the library has to do with the same bytes.
//! Every rule of the format is kept, and nothing is built twice.

use entity_core::{CompareOp, Comparison, Condition, FieldDefinition, FieldKind, ObjectSchema, Quantifier, RuleDefinition};
use model::number::is_number;
use serde_json::{Map, Number, Value};
use std::collections::BTreeMap;

const MAX_SHEET_BYTES: usize = 30_000;
const MAX_SCHEMA_ENTRIES: usize = 1_024;
const MAX_RULE_ENTRIES: usize = 2_048;
const MAX_TEXT_BYTES: usize = 512;
const MAX_FIELD_NESTING: usize = 64;
const MAX_CONDITION_NESTING: usize = 256;
const MAX_VALUE_NESTING: usize = 64;

#[derive(Debug, PartialEq)]
pub struct Schemas {
    pub fields: ObjectSchema,
    pub args: Option<ObjectSchema>,
}

#[derive(Debug, PartialEq)]
pub enum Rule {
    Rule(RuleDefinition),
    Template(Value),
}

pub fn schemas(sheet: &[u8]) -> Option<Schemas> {
    let mut reader = Reader::new(sheet, MAX_SCHEMA_ENTRIES)?;
    let schemas = reader.schemas()?;
    reader.is_at_end().then_some(schemas)
}

pub fn rule(sheet: &[u8]) -> Option<Rule> {
    let mut reader = Reader::new(sheet, MAX_RULE_ENTRIES)?;
    let rule = match sheet.first()? {
        b'R' => Rule::Rule(reader.rule()?),
        _ => Rule::Template(reader.template()?),
    };
    reader.is_at_end().then_some(rule)
}

/// The sheet, the place of the next byte, how many entries were begun, and how many there may be.
struct Reader<'a> {
    sheet: &'a [u8],
    at: usize,
    entries: usize,
    max_entries: usize,
}

impl<'a> Reader<'a> {
    fn new(sheet: &'a [u8], max_entries: usize) -> Option<Self> {
        (sheet.len() <= MAX_SHEET_BYTES).then_some(Reader { sheet, at: 0, entries: 0, max_entries })
    }

    fn is_at_end(&self) -> bool {
        self.at == self.sheet.len()
    }

    fn byte(&mut self, expected: u8) -> Option<()> {
        let found = *self.sheet.get(self.at)? == expected;
        self.at += 1;
        found.then_some(())
    }

    fn begin(&mut self, letter: u8) -> Option<()> {
        self.entries += 1;
        self.byte(letter)?;
        (self.entries <= self.max_entries).then_some(())
    }

    /// A comma, then a numeral up to `most`.
    fn numeral(&mut self, most: usize) -> Option<usize> {
        self.byte(b',')?;
        let start = self.at;
        let mut value = 0;
        while let Some(digit) = self.sheet.get(self.at).filter(|byte| byte.is_ascii_digit()) {
            value = value * 10 + usize::from(digit - b'0');
            self.at += 1;
            if value > most {
                return None;
            }
        }
        let leads_with_zero = self.at > start + 1 && self.sheet[start] == b'0';
        (self.at > start && !leads_with_zero).then_some(value)
    }

    /// A comma, then `-` (none) or a numeral up to `most`.
    fn numeral_or_dash(&mut self, most: usize) -> Option<Option<usize>> {
        if self.sheet[self.at..].starts_with(b",-") {
            self.at += 2;
            return Some(None);
        }
        self.numeral(most).map(Some)
    }

    fn mark(&mut self) -> Option<bool> {
        Some(self.numeral(1)? == 1)
    }

    fn text(&mut self, length: usize) -> Option<String> {
        let bytes = self.sheet.get(self.at..self.at + length)?;
        self.at += length;
        std::str::from_utf8(bytes).ok().filter(|_| length <= MAX_TEXT_BYTES).map(str::to_owned)
    }

    fn text_or_absent(&mut self, length: Option<usize>) -> Option<Option<String>> {
        match length {
            None => Some(None),
            Some(length) => self.text(length).map(Some),
        }
    }
}

/// The schema sheet.
impl Reader<'_> {
    fn schemas(&mut self) -> Option<Schemas> {
        self.begin(b'H')?;
        let record_open = self.mark()?;
        let record_count = self.numeral(self.max_entries)?;
        let arguments_open = self.numeral_or_dash(1)?;
        let arguments_count = self.numeral(self.max_entries)?;
        self.byte(b'\n')?;
        let fields = ObjectSchema { fields: self.fields(record_count, 1)?, additional_fields: record_open };
        let args = match arguments_open {
            None if arguments_count > 0 => return None,
            None => None,
            Some(open) => Some(ObjectSchema { fields: self.fields(arguments_count, 1)?, additional_fields: open == 1 }),
        };
        Some(Schemas { fields, args })
    }

    /// Sibling fields. The map is made from a list that is in its order already, the quickest way to make one.
    fn fields(&mut self, count: usize, nesting: usize) -> Option<BTreeMap<String, FieldDefinition>> {
        let mut fields: Vec<(String, FieldDefinition)> = Vec::with_capacity(count);
        for _ in 0..count {
            let (name, field) = self.field(nesting)?;
            if fields.last().is_some_and(|(last, _)| *last >= name) {
                return None;
            }
            fields.push((name, field));
        }
        Some(fields.into_iter().collect())
    }

    fn field(&mut self, nesting: usize) -> Option<(String, FieldDefinition)> {
        if nesting > MAX_FIELD_NESTING {
            return None;
        }
        self.begin(b'F')?;
        let kind = field_kind(self.numeral(12)?)?;
        let additional_properties = self.mark()?;
        let has_items = self.mark()?;
        let count = self.numeral(self.max_entries)?;
        let name_length = self.numeral(MAX_TEXT_BYTES)?;
        let tag_length = self.numeral_or_dash(MAX_TEXT_BYTES)?;
        self.byte(b',')?;
        let name = self.text(name_length)?;
        let tag = self.text_or_absent(tag_length)?;
        self.byte(b'\n')?;
        let items = if has_items { Some(Box::new(self.element(nesting + 1)?)) } else { None };
        let properties = self.fields(count, nesting + 1)?;
        Some((name, FieldDefinition { kind, items, properties, additional_properties, tag, ..FieldDefinition::default() }))
    }

    fn element(&mut self, nesting: usize) -> Option<FieldDefinition> {
        self.field(nesting).filter(|(name, _)| name.is_empty()).map(|(_, element)| element)
    }
}

/// The rule sheet.
impl Reader<'_> {
    fn rule(&mut self) -> Option<RuleDefinition> {
        self.begin(b'R')?;
        let name_length = self.numeral_or_dash(MAX_TEXT_BYTES)?;
        let message_length = self.numeral_or_dash(MAX_TEXT_BYTES)?;
        self.byte(b',')?;
        let name = self.text_or_absent(name_length)?;
        let message = self.text_or_absent(message_length)?;
        self.byte(b'\n')?;
        Some(RuleDefinition { name, condition: self.condition(1)?, message })
    }

    fn template(&mut self) -> Option<Value> {
        self.begin(b'T')?;
        self.byte(b'\n')?;
        self.value(1)
    }

    fn condition(&mut self, nesting: usize) -> Option<Condition> {
        if nesting > MAX_CONDITION_NESTING {
            return None;
        }
        self.begin(b'C')?;
        let operator = self.numeral(21)?;
        let n = self.numeral(self.max_entries)?;
        self.byte(b',')?;
        let bind = self.text(if operator >= 20 { n } else { 0 })?;
        self.byte(b'\n')?;
        Some(match (operator, n) {
            (1, 0..=1) => Condition::Literal(n == 1),
            (2, _) => Condition::All { all: self.conditions(n, nesting + 1)? },
            (3, _) => Condition::Any { any: self.conditions(n, nesting + 1)? },
            (4, 0) => Condition::Not { not: Box::new(self.condition(nesting + 1)?) },
            (5, 0) => Condition::Exists { exists: self.value(1)? },
            (6..=17, 0) => pair(operator, [self.value(1)?, self.value(1)?]),
            (18, 1..=6) => {
                let (left, right) = (self.value(1)?, self.value(1)?);
                Condition::Compare { compare: Box::new(Comparison { left, op: compare_op(n), right }) }
            }
            (19, 0) => Condition::Truthy { truthy: self.value(1)? },
            (20 | 21, _) => {
                let over = self.value(1)?;
                let body = Box::new(self.condition(nesting + 1)?);
                quantifier(operator, Box::new(Quantifier { over, bind, body }))
            }
            _ => return None,
        })
    }

    fn conditions(&mut self, count: usize, nesting: usize) -> Option<Vec<Condition>> {
        let mut conditions = Vec::with_capacity(count);
        for _ in 0..count {
            conditions.push(self.condition(nesting)?);
        }
        Some(conditions)
    }

    fn value(&mut self, nesting: usize) -> Option<Value> {
        if nesting > MAX_VALUE_NESTING {
            return None;
        }
        self.begin(b'V')?;
        let form = self.numeral(7)?;
        let n = self.numeral(self.max_entries)?;
        self.byte(b',')?;
        let text = self.text(if matches!(form, 4 | 5) { n } else { 0 })?;
        self.byte(b'\n')?;
        Some(match (form, n) {
            (1, 0) => Value::Null,
            (2 | 3, 0) => Value::Bool(form == 3),
            (4, _) if is_number(&text) => Value::Number(Number::from_string_unchecked(text)),
            (5, _) => Value::String(text),
            (6, _) => Value::Array(self.values(n, nesting + 1)?),
            (7, _) => Value::Object(self.members(n, nesting + 1)?),
            _ => return None,
        })
    }

    fn values(&mut self, count: usize, nesting: usize) -> Option<Vec<Value>> {
        let mut values = Vec::with_capacity(count);
        for _ in 0..count {
            values.push(self.value(nesting)?);
        }
        Some(values)
    }

    /// The members of an object in the order given. The map says whether a key comes again.
    fn members(&mut self, count: usize, nesting: usize) -> Option<Map<String, Value>> {
        let mut members = Map::with_capacity(count);
        for _ in 0..count {
            self.begin(b'K')?;
            let length = self.numeral(MAX_TEXT_BYTES)?;
            self.byte(b',')?;
            let key = self.text(length)?;
            self.byte(b'\n')?;
            if members.insert(key, self.value(nesting)?).is_some() {
                return None;
            }
        }
        Some(members)
    }
}

fn field_kind(number: usize) -> Option<FieldKind> {
    Some(match number {
        1 => FieldKind::String,
        2 => FieldKind::Integer,
        3 => FieldKind::Number,
        4 => FieldKind::Boolean,
        5 => FieldKind::Enum,
        6 => FieldKind::Array,
        7 => FieldKind::Object,
        8 => FieldKind::Json,
        9 => FieldKind::Ref,
        10 => FieldKind::Map,
        11 => FieldKind::Union,
        12 => FieldKind::Binary64,
        _ => return None,
    })
}

fn pair(operator: usize, pair: [Value; 2]) -> Condition {
    match operator {
        6 => Condition::Before { before: pair },
        7 => Condition::After { after: pair },
        8 => Condition::Eq { eq: pair },
        9 => Condition::Ne { ne: pair },
        10 => Condition::Gt { gt: pair },
        11 => Condition::Gte { gte: pair },
        12 => Condition::Lt { lt: pair },
        13 => Condition::Lte { lte: pair },
        14 => Condition::In { values: pair },
        15 => Condition::Contains { contains: pair },
        16 => Condition::StartsWith { starts_with: pair },
        _ => Condition::EndsWith { ends_with: pair },
    }
}

fn compare_op(number: usize) -> CompareOp {
    match number {
        1 => CompareOp::Eq,
        2 => CompareOp::Ne,
        3 => CompareOp::Lt,
        4 => CompareOp::Lte,
        5 => CompareOp::Gt,
        _ => CompareOp::Gte,
    }
}

fn quantifier(operator: usize, quantifier: Box<Quantifier>) -> Condition {
    match operator {
        20 => Condition::ForAll { for_all: quantifier },
        _ => Condition::ForAny { for_any: quantifier },
    }
}
