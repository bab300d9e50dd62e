//! Makes a case smaller as long as it shows the same trouble.

use crate::case::{Case, Expect};
use model::table::Table;
use model::trees::{Condition, Data, Field, Operator, Schema, Sheet, Value};
use model::{decode_rule, decode_schema, write_rule, write_schema};
use std::time::{Duration, Instant};

/// Large cases have many parts to try; what is small by then is printed.
const TIME: Duration = Duration::from_secs(30);

/// The smallest case that the steps below lead to in time. What was expected of the first case says nothing about smaller ones.
pub fn shrink(case: &Case, fails: impl Fn(&Case) -> bool) -> Case {
    let free = Case { expect: Expect::Anything, ..case.clone() };
    let mut small = if fails(&free) { free } else { return case.clone() };
    let end = Instant::now() + TIME;
    let in_time = |_: &Case| Instant::now() < end;
    while let Some(smaller) = candidates(&small).into_iter().take_while(in_time).find(|candidate| fails(candidate)) {
        small = smaller;
    }
    small
}

/// The case with one part left out or made smaller.
pub fn candidates(case: &Case) -> Vec<Case> {
    let mut found = Vec::new();
    if !case.label.is_empty() {
        found.push(Case { label: Vec::new(), ..case.clone() });
    }
    found.extend(tables(&case.table).into_iter().map(|table| Case { table, ..case.clone() }));
    match decode_schema(&case.schema) {
        Some(schema) => found.extend(schemas(&schema).iter().map(|smaller| Case { schema: write_schema(smaller), ..case.clone() })),
        None => found.extend(shorter(&case.schema).into_iter().map(|schema| Case { schema, ..case.clone() })),
    }
    match decode_rule(&case.rule) {
        Some(sheet) => found.extend(sheets(&sheet).iter().map(|smaller| Case { rule: write_rule(smaller), ..case.clone() })),
        None => found.extend(shorter(&case.rule).into_iter().map(|rule| Case { rule, ..case.clone() })),
    }
    found
}

/// No table, nothing after it, or one mark more as in the stock table; what is not a table is made shorter.
fn tables(table: &[u8]) -> Vec<Vec<u8>> {
    if table.is_empty() {
        return Vec::new();
    }
    let Some(read) = Table::lent(table) else {
        return shorter(table);
    };
    let stock = Table::stock().write();
    let bare = read.write();
    let differing = (0..bare.len()).filter(|at| bare[*at] != stock[*at]);
    let nearer = differing.map(|at| [&bare[..at], &stock[at..at + 1], &bare[at + 1..]].concat());
    let mut found: Vec<Vec<u8>> = std::iter::once(Vec::new()).chain(nearer).collect();
    if table.len() > bare.len() {
        found.push(bare.clone());
    }
    found
}

/// Bytes with a part left out, larger parts first.
pub fn shorter(bytes: &[u8]) -> Vec<Vec<u8>> {
    let halves = std::iter::successors(Some(bytes.len() / 2), |size| (*size > 1).then_some(size / 2)).filter(|size| *size > 0);
    let without = |start: usize, size: usize| [&bytes[..start], &bytes[(start + size).min(bytes.len())..]].concat();
    halves
        .flat_map(|size| (0..bytes.len()).step_by(size).map(move |start| (start, size)))
        .map(|(start, size)| without(start, size))
        .collect()
}

/// The schema with one part left out.
pub fn schemas(schema: &Schema) -> Vec<Schema> {
    let mut found = Vec::new();
    for fields in lists(&schema.record.fields, fields) {
        let mut smaller = schema.clone();
        smaller.record.fields = fields;
        found.push(smaller);
    }
    if let Some(arguments) = &schema.arguments {
        found.push(Schema { arguments: None, ..schema.clone() });
        for fields in lists(&arguments.fields, fields) {
            let mut smaller = arguments.clone();
            smaller.fields = fields;
            found.push(Schema { arguments: Some(smaller), ..schema.clone() });
        }
    }
    found
}

/// A list with one element left out, or one made smaller.
fn lists<T: Clone>(list: &[T], smaller: impl Fn(&T) -> Vec<T>) -> Vec<Vec<T>> {
    let without = (0..list.len()).map(|at| [&list[..at], &list[at + 1..]].concat());
    let mut found: Vec<Vec<T>> = without.collect();
    for (at, element) in list.iter().enumerate() {
        found.extend(smaller(element).into_iter().map(|element| {
            let mut changed = list.to_vec();
            changed[at] = element;
            changed
        }));
    }
    found
}

fn fields(field: &Field) -> Vec<Field> {
    let mut found: Vec<Field> =
        lists(&field.properties, fields).into_iter().map(|properties| Field { properties, ..field.clone() }).collect();
    if field.tag.is_some() {
        found.push(Field { tag: None, ..field.clone() });
    }
    if let Some(items) = &field.items {
        found.push(Field { items: None, ..field.clone() });
        found.extend(fields(items).into_iter().map(|items| Field { items: Some(Box::new(items)), ..field.clone() }));
    }
    found
}

fn sheets(sheet: &Sheet) -> Vec<Sheet> {
    let rule = match sheet {
        Sheet::Template(value) => return values(value).into_iter().map(Sheet::Template).collect(),
        Sheet::Rule(rule) => rule,
    };
    let mut found = Vec::new();
    for condition in conditions(&rule.condition) {
        let mut smaller = rule.clone();
        smaller.condition = condition;
        found.push(Sheet::Rule(smaller));
    }
    if rule.name.is_some() || rule.message.is_some() {
        let mut smaller = rule.clone();
        (smaller.name, smaller.message) = (None, None);
        found.push(Sheet::Rule(smaller));
    }
    found
}

fn conditions(condition: &Condition) -> Vec<Condition> {
    let with = |operator| Condition { entry: 0, operator };
    let mut found = match &condition.operator {
        Operator::Literal(_) => return Vec::new(),
        Operator::All(children) => {
            [children.clone(), lists(children, conditions).into_iter().map(Operator::All).map(with).collect()].concat()
        }
        Operator::Any(children) => {
            [children.clone(), lists(children, conditions).into_iter().map(Operator::Any).map(with).collect()].concat()
        }
        Operator::Not(child) => {
            let inner = conditions(child).into_iter().map(|child| with(Operator::Not(Box::new(child))));
            std::iter::once((**child).clone()).chain(inner).collect()
        }
        Operator::Exists(value) => values(value).into_iter().map(Operator::Exists).map(with).collect(),
        Operator::Truthy(value) => values(value).into_iter().map(Operator::Truthy).map(with).collect(),
        Operator::Pair(number, sides) => pairs(sides).into_iter().map(|sides| with(Operator::Pair(*number, Box::new(sides)))).collect(),
        Operator::Compare(number, sides) => {
            pairs(sides).into_iter().map(|sides| with(Operator::Compare(*number, Box::new(sides)))).collect()
        }
        Operator::Quantifier { .. } => quantifiers(&condition.operator).into_iter().map(with).collect(),
    };
    found.push(with(Operator::Literal(true)));
    found
}

fn pairs(sides: &[Value; 2]) -> Vec<[Value; 2]> {
    let [left, right] = sides;
    let lefts = values(left).into_iter().map(|left| [left, right.clone()]);
    let rights = values(right).into_iter().map(|right| [left.clone(), right]);
    lefts.chain(rights).collect()
}

/// A quantifier with its body or its `in` made smaller, or its body alone.
fn quantifiers(quantifier: &Operator) -> Vec<Operator> {
    let Operator::Quantifier { operator, bind, over, body } = quantifier else {
        return Vec::new();
    };
    let with = |over: Value, body: Condition| Operator::Quantifier { operator: *operator, bind: bind.clone(), over, body: Box::new(body) };
    let mut found = vec![body.operator.clone()];
    found.extend(conditions(body).into_iter().map(|body| with(over.clone(), body)));
    found.extend(values(over).into_iter().map(|over| with(over, (**body).clone())));
    found
}

fn values(value: &Value) -> Vec<Value> {
    let with = |data| Value { entry: 0, data };
    let mut found: Vec<Value> = match &value.data {
        Data::Null => return Vec::new(),
        Data::Bool(_) => Vec::new(),
        Data::Number(text) => (text != "0").then(|| with(Data::Number("0".to_owned()))).into_iter().collect(),
        Data::String(text) => texts(text).into_iter().map(Data::String).map(with).collect(),
        Data::Array(members) => [members.clone(), lists(members, values).into_iter().map(Data::Array).map(with).collect()].concat(),
        Data::Object(members) => {
            let smaller = |member: &(String, Value)| values(&member.1).into_iter().map(|inner| (member.0.clone(), inner)).collect();
            let inner = members.iter().map(|(_, member)| member.clone());
            inner.chain(lists(members, smaller).into_iter().map(Data::Object).map(with)).collect()
        }
    };
    found.push(with(Data::Null));
    found
}

/// A text with one character left out.
fn texts(text: &str) -> Vec<String> {
    text.char_indices().map(|(at, character)| format!("{}{}", &text[..at], &text[at + character.len_utf8()..])).collect()
}
