//! Both sheets read into trees and written from them (docs/FORMAT.md, "Sheets").

use super::number::is_number;
use super::text::is_utf8;
use super::trees::{Condition, Data, Field, Holder, Operator, Rule, Schema, Sheet, Value};
use std::collections::HashSet;

pub const MAX_SHEET_BYTES: usize = 30_000;
pub const MAX_SCHEMA_ENTRIES: u32 = 1_024;
pub const MAX_RULE_ENTRIES: u32 = 2_048;
pub const MAX_TEXT_BYTES: usize = 512;
pub const MAX_FIELD_NESTING: usize = 64;
pub const MAX_CONDITION_NESTING: usize = 256;
pub const MAX_VALUE_NESTING: usize = 64;

/// The tree of a schema sheet, or none where the sheet is not well formed.
pub fn decode_schema(sheet: &[u8]) -> Option<Schema> {
    let mut reader = Reader::new(sheet, MAX_SCHEMA_ENTRIES)?;
    let schema = reader.schema()?;
    reader.is_at_end().then_some(schema)
}

/// The tree of a rule sheet, or none where the sheet is not well formed.
pub fn decode_rule(sheet: &[u8]) -> Option<Sheet> {
    let mut reader = Reader::new(sheet, MAX_RULE_ENTRIES)?;
    let tree = match sheet.first()? {
        b'R' => Sheet::Rule(reader.rule()?),
        _ => Sheet::Template(reader.template()?),
    };
    reader.is_at_end().then_some(tree)
}

/// What is left of a sheet, and how many entries were begun.
struct Reader<'a> {
    rest: &'a [u8],
    entries: u32,
    max_entries: u32,
}

/// The parts that entries are made of. Each takes what it reads off the sheet.
impl<'a> Reader<'a> {
    fn new(sheet: &'a [u8], max_entries: u32) -> Option<Self> {
        (sheet.len() <= MAX_SHEET_BYTES).then_some(Reader {
            rest: sheet,
            entries: 0,
            max_entries,
        })
    }

    fn is_at_end(&self) -> bool {
        self.rest.is_empty()
    }

    fn byte(&mut self, expected: u8) -> Option<()> {
        self.rest = self.rest.strip_prefix(&[expected])?;
        Some(())
    }

    /// The letter that begins an entry; answers the entry's number.
    fn begin(&mut self, letter: u8) -> Option<u32> {
        self.byte(letter)?;
        self.entries += 1;
        (self.entries <= self.max_entries).then_some(self.entries)
    }

    /// A comma, then a numeral up to `most`.
    fn numeral(&mut self, most: usize) -> Option<usize> {
        self.byte(b',')?;
        let count = self
            .rest
            .iter()
            .take_while(|byte| byte.is_ascii_digit())
            .count();
        let (digits, rest) = self.rest.split_at(count);
        self.rest = rest;
        numeral_value(digits).filter(|&value| value <= most)
    }

    /// A comma, then `-` (none) or a numeral up to `most`.
    fn numeral_or_dash(&mut self, most: usize) -> Option<Option<usize>> {
        match self.rest.strip_prefix(b",-") {
            Some(rest) => {
                self.rest = rest;
                Some(None)
            }
            None => self.numeral(most).map(Some),
        }
    }

    fn mark(&mut self) -> Option<bool> {
        Some(self.numeral(1)? == 1)
    }

    /// A text of `length` bytes that is UTF-8 by itself.
    fn text(&mut self, length: usize) -> Option<String> {
        let bytes = self.rest.get(..length)?;
        if length > MAX_TEXT_BYTES || !is_utf8(bytes) {
            return None;
        }
        self.rest = &self.rest[length..];
        Some(String::from_utf8(bytes.to_vec()).expect("std agrees that this is UTF-8"))
    }

    fn text_or_absent(&mut self, length: Option<usize>) -> Option<Option<String>> {
        match length {
            None => Some(None),
            Some(length) => self.text(length).map(Some),
        }
    }

    fn end(&mut self) -> Option<()> {
        self.byte(0x0A)
    }
}

/// The value of a numeral without leading zeros. Nothing in a sheet reaches six digits, so a longer numeral has no value here.
fn numeral_value(digits: &[u8]) -> Option<usize> {
    if digits.is_empty() || digits.len() > 5 || (digits.len() > 1 && digits[0] == b'0') {
        return None;
    }
    Some(
        digits
            .iter()
            .fold(0, |value, digit| value * 10 + usize::from(digit - b'0')),
    )
}

/// Whether each text comes strictly after the one before it, by bytes.
fn rise<'t>(texts: impl Iterator<Item = &'t String> + Clone) -> bool {
    let following = texts.clone().skip(1);
    texts
        .zip(following)
        .all(|(one, next)| one.as_bytes() < next.as_bytes())
}

/// Whether no text occurs twice.
fn differ<'t>(mut texts: impl Iterator<Item = &'t String>) -> bool {
    let mut met = HashSet::new();
    texts.all(|text| met.insert(text))
}

/// The schema sheet.
impl Reader<'_> {
    /// `H,o,n,p,m`, the fields, the arguments.
    fn schema(&mut self) -> Option<Schema> {
        let most = self.max_entries as usize;
        self.begin(b'H')?;
        let record_open = self.mark()?;
        let record_count = self.numeral(most)?;
        let arguments_open = self.numeral_or_dash(1)?;
        let arguments_count = self.numeral(most)?;
        self.end()?;
        let record = Holder {
            open: record_open,
            fields: self.fields(record_count, 1)?,
        };
        let arguments = match arguments_open {
            None if arguments_count > 0 => return None,
            None => None,
            Some(open) => Some(Holder {
                open: open == 1,
                fields: self.fields(arguments_count, 1)?,
            }),
        };
        Some(Schema { record, arguments })
    }

    /// Sibling fields, their names rising.
    fn fields(&mut self, count: usize, nesting: usize) -> Option<Vec<Field>> {
        let fields = (0..count)
            .map(|_| self.field(nesting))
            .collect::<Option<Vec<Field>>>()?;
        rise(fields.iter().map(|field| &field.name)).then_some(fields)
    }

    /// `F,kind,open,items,count,a,t,text`, the element where there is one, the properties.
    fn field(&mut self, nesting: usize) -> Option<Field> {
        if nesting > MAX_FIELD_NESTING {
            return None;
        }
        let entry = self.begin(b'F')?;
        let kind = self.numeral(12)?;
        if kind == 0 {
            return None;
        }
        let open = self.mark()?;
        let has_items = self.mark()?;
        let count = self.numeral(self.max_entries as usize)?;
        let name_length = self.numeral(MAX_TEXT_BYTES)?;
        let tag_length = self.numeral_or_dash(MAX_TEXT_BYTES)?;
        self.byte(b',')?;
        let name = self.text(name_length)?;
        let tag = self.text_or_absent(tag_length)?;
        self.end()?;
        let items = match has_items {
            true => Some(Box::new(self.element(nesting + 1)?)),
            false => None,
        };
        let properties = self.fields(count, nesting + 1)?;
        Some(Field {
            entry,
            name,
            kind: kind as u8,
            open,
            tag,
            items,
            properties,
        })
    }

    /// An element's field: its name has no bytes.
    fn element(&mut self, nesting: usize) -> Option<Field> {
        self.field(nesting)
            .filter(|element| element.name.is_empty())
    }
}

/// The rule sheet.
impl Reader<'_> {
    /// `R,a,b,text`, one condition.
    fn rule(&mut self) -> Option<Rule> {
        self.begin(b'R')?;
        let name_length = self.numeral_or_dash(MAX_TEXT_BYTES)?;
        let message_length = self.numeral_or_dash(MAX_TEXT_BYTES)?;
        self.byte(b',')?;
        let name = self.text_or_absent(name_length)?;
        let message = self.text_or_absent(message_length)?;
        self.end()?;
        let condition = self.condition(1)?;
        Some(Rule {
            name,
            message,
            condition,
        })
    }

    /// `T`, one value.
    fn template(&mut self) -> Option<Value> {
        self.begin(b'T')?;
        self.end()?;
        self.value(1)
    }

    /// `C,op,n,text`, then what the operator holds.
    fn condition(&mut self, nesting: usize) -> Option<Condition> {
        if nesting > MAX_CONDITION_NESTING {
            return None;
        }
        let entry = self.begin(b'C')?;
        let number = self.numeral(21)?;
        let n = self.numeral(MAX_RULE_ENTRIES as usize)?;
        self.byte(b',')?;
        let bind = self.text(if number >= 20 { n } else { 0 })?;
        self.end()?;
        let operator = self.operator(number as u8, n, bind, nesting)?;
        Some(Condition { entry, operator })
    }

    fn operator(&mut self, number: u8, n: usize, bind: String, nesting: usize) -> Option<Operator> {
        let operator = match (number, n) {
            (1, 0) => Operator::Literal(false),
            (1, 1) => Operator::Literal(true),
            (2, _) => Operator::All(self.conditions(n, nesting + 1)?),
            (3, _) => Operator::Any(self.conditions(n, nesting + 1)?),
            (4, 0) => Operator::Not(Box::new(self.condition(nesting + 1)?)),
            (5, 0) => Operator::Exists(self.value(1)?),
            (6..=17, 0) => Operator::Pair(number, self.pair()?),
            (18, 1..=6) => Operator::Compare(n as u8, self.pair()?),
            (19, 0) => Operator::Truthy(self.value(1)?),
            (20 | 21, _) => Operator::Quantifier {
                operator: number,
                bind,
                over: self.value(1)?,
                body: Box::new(self.condition(nesting + 1)?),
            },
            _ => return None,
        };
        Some(operator)
    }

    fn conditions(&mut self, count: usize, nesting: usize) -> Option<Vec<Condition>> {
        (0..count).map(|_| self.condition(nesting)).collect()
    }

    fn pair(&mut self) -> Option<Box<[Value; 2]>> {
        Some(Box::new([self.value(1)?, self.value(1)?]))
    }

    /// `V,type,n,text`, then the members.
    fn value(&mut self, nesting: usize) -> Option<Value> {
        if nesting > MAX_VALUE_NESTING {
            return None;
        }
        let entry = self.begin(b'V')?;
        let number = self.numeral(7)?;
        let n = self.numeral(MAX_RULE_ENTRIES as usize)?;
        self.byte(b',')?;
        let text = self.text(if matches!(number, 4 | 5) { n } else { 0 })?;
        self.end()?;
        let data = match (number, n) {
            (1, 0) => Data::Null,
            (2, 0) => Data::Bool(false),
            (3, 0) => Data::Bool(true),
            (4, _) if is_number(&text) => Data::Number(text),
            (5, _) => Data::String(text),
            (6, _) => Data::Array(
                (0..n)
                    .map(|_| self.value(nesting + 1))
                    .collect::<Option<_>>()?,
            ),
            (7, _) => Data::Object(self.members(n, nesting + 1)?),
            _ => return None,
        };
        Some(Value { entry, data })
    }

    /// An object's members, in the order given, no key twice.
    fn members(&mut self, count: usize, nesting: usize) -> Option<Vec<(String, Value)>> {
        let members = (0..count)
            .map(|_| self.member(nesting))
            .collect::<Option<Vec<_>>>()?;
        differ(members.iter().map(|(key, _)| key)).then_some(members)
    }

    /// `K,n,key`, then the member's value.
    fn member(&mut self, nesting: usize) -> Option<(String, Value)> {
        self.begin(b'K')?;
        let length = self.numeral(MAX_TEXT_BYTES)?;
        self.byte(b',')?;
        let key = self.text(length)?;
        self.end()?;
        Some((key, self.value(nesting)?))
    }
}

/// The sheet of a schema tree; its entry numbers are not looked at.
pub fn write_schema(schema: &Schema) -> Vec<u8> {
    let mut sheet = Vec::new();
    let record = &schema.record;
    let arguments = match &schema.arguments {
        Some(holder) => format!("{},{}", u8::from(holder.open), holder.fields.len()),
        None => "-,0".to_owned(),
    };
    let head = format!(
        "H,{},{},{arguments}\n",
        u8::from(record.open),
        record.fields.len()
    );
    sheet.extend(head.bytes());
    let arguments = schema.arguments.iter().flat_map(|holder| &holder.fields);
    record
        .fields
        .iter()
        .chain(arguments)
        .for_each(|field| write_field(field, &mut sheet));
    sheet
}

fn write_field(field: &Field, sheet: &mut Vec<u8>) {
    let head = format!(
        "F,{},{},{},{},{},{},",
        field.kind,
        u8::from(field.open),
        u8::from(field.items.is_some()),
        field.properties.len(),
        field.name.len(),
        length_or_dash(&field.tag),
    );
    write_entry(head, &[Some(&field.name), field.tag.as_ref()], sheet);
    field
        .items
        .iter()
        .for_each(|element| write_field(element, sheet));
    field
        .properties
        .iter()
        .for_each(|property| write_field(property, sheet));
}

fn length_or_dash(text: &Option<String>) -> String {
    text.as_ref()
        .map_or("-".to_owned(), |text| text.len().to_string())
}

fn write_entry(head: String, texts: &[Option<&String>], sheet: &mut Vec<u8>) {
    sheet.extend(head.bytes());
    texts
        .iter()
        .flatten()
        .for_each(|text| sheet.extend(text.bytes()));
    sheet.push(0x0A);
}

/// The sheet of a rule or template; its entry numbers are not looked at.
pub fn write_rule(tree: &Sheet) -> Vec<u8> {
    let mut sheet = Vec::new();
    match tree {
        Sheet::Rule(rule) => {
            let head = format!(
                "R,{},{},",
                length_or_dash(&rule.name),
                length_or_dash(&rule.message)
            );
            write_entry(
                head,
                &[rule.name.as_ref(), rule.message.as_ref()],
                &mut sheet,
            );
            write_condition(&rule.condition, &mut sheet);
        }
        Sheet::Template(value) => {
            sheet.extend(b"T\n");
            write_value(value, &mut sheet);
        }
    }
    sheet
}

fn write_condition(condition: &Condition, sheet: &mut Vec<u8>) {
    let operator = &condition.operator;
    let n = match operator {
        Operator::Literal(truth) => usize::from(*truth),
        Operator::All(children) | Operator::Any(children) => children.len(),
        Operator::Compare(comparison, _) => usize::from(*comparison),
        Operator::Quantifier { bind, .. } => bind.len(),
        _ => 0,
    };
    let bind = match operator {
        Operator::Quantifier { bind, .. } => Some(bind),
        _ => None,
    };
    write_entry(
        format!("C,{},{n},", operator_number(operator)),
        &[bind],
        sheet,
    );
    match operator {
        Operator::Literal(_) => {}
        Operator::All(children) | Operator::Any(children) => children
            .iter()
            .for_each(|child| write_condition(child, sheet)),
        Operator::Not(child) => write_condition(child, sheet),
        Operator::Exists(value) | Operator::Truthy(value) => write_value(value, sheet),
        Operator::Pair(_, values) | Operator::Compare(_, values) => {
            values.iter().for_each(|value| write_value(value, sheet))
        }
        Operator::Quantifier { over, body, .. } => {
            write_value(over, sheet);
            write_condition(body, sheet);
        }
    }
}

/// The number of an operator in a `C` entry.
pub fn operator_number(operator: &Operator) -> u8 {
    match operator {
        Operator::Literal(_) => 1,
        Operator::All(_) => 2,
        Operator::Any(_) => 3,
        Operator::Not(_) => 4,
        Operator::Exists(_) => 5,
        Operator::Pair(number, _) => *number,
        Operator::Compare(..) => 18,
        Operator::Truthy(_) => 19,
        Operator::Quantifier { operator, .. } => *operator,
    }
}

fn write_value(value: &Value, sheet: &mut Vec<u8>) {
    let (head, text) = match &value.data {
        Data::Null => ("V,1,0,".to_owned(), None),
        Data::Bool(false) => ("V,2,0,".to_owned(), None),
        Data::Bool(true) => ("V,3,0,".to_owned(), None),
        Data::Number(text) => (format!("V,4,{},", text.len()), Some(text)),
        Data::String(text) => (format!("V,5,{},", text.len()), Some(text)),
        Data::Array(values) => (format!("V,6,{},", values.len()), None),
        Data::Object(members) => (format!("V,7,{},", members.len()), None),
    };
    write_entry(head, &[text], sheet);
    match &value.data {
        Data::Array(values) => values.iter().for_each(|value| write_value(value, sheet)),
        Data::Object(members) => members.iter().for_each(|(key, value)| {
            write_entry(format!("K,{},", key.len()), &[Some(key)], sheet);
            write_value(value, sheet);
        }),
        _ => {}
    }
}
