//! Schemas that are more or less closed, and the ways to their holders.

use crate::generate::build::{element, field, holder, schema, sorted, ARRAY, MAP, OBJECT};
use crate::generate::schemas;
use crate::generate::setting::Setting;
use crate::random::Random;
use model::trees::{Field, Schema};
use model::{decode_schema, write_schema};

/// Most schemas have no more closed marks than this, so that every set of them can be asked about.
const FEW: usize = 9;

/// The schema with its entry numbers.
fn numbered(schema: &Schema) -> Schema {
    decode_schema(&write_schema(schema)).expect("a small schema can be read")
}

/// A mark with its number, and whether its holder is the record, the arguments or an object.
struct Mark<'s> {
    number: u32,
    open: &'s mut bool,
    counts: bool,
}

/// Every mark of a schema that has its entry numbers.
fn marks(schema: &mut Schema) -> Vec<Mark<'_>> {
    let mut found = vec![Mark { number: 1, open: &mut schema.record.open, counts: true }];
    schema.record.fields.iter_mut().for_each(|field| below(field, &mut found));
    if let Some(arguments) = &mut schema.arguments {
        found.push(Mark { number: 0, open: &mut arguments.open, counts: true });
        arguments.fields.iter_mut().for_each(|field| below(field, &mut found));
    }
    found
}

fn below<'s>(field: &'s mut Field, found: &mut Vec<Mark<'s>>) {
    let Field { entry, kind, open, items, properties, .. } = field;
    found.push(Mark { number: *entry, open, counts: *kind == OBJECT });
    items.as_deref_mut().into_iter().chain(properties).for_each(|field| below(field, found));
}

/// The schema with open marks closed, so many in a hundred; and the numbers of those.
pub fn with_closed(random: &mut Random, wide: &Schema, often: usize) -> (Schema, Vec<u32>) {
    let mut narrow = numbered(wide);
    let (mut closed, few) = (Vec::new(), random.chance(90));
    for mark in marks(&mut narrow) {
        if *mark.open && random.chance(often) {
            *mark.open = false;
            closed.push(mark.number);
        }
    }
    let mut shut: Vec<Mark> = marks(&mut narrow).into_iter().filter(|mark| !*mark.open).collect();
    // A mark that counts for nothing is the first to be opened again.
    random.shuffle(&mut shut);
    shut.sort_by_key(|mark| !mark.counts);
    for mark in shut.into_iter().skip(if few { FEW } else { usize::MAX }) {
        *mark.open = true;
        closed.retain(|number| *number != mark.number);
    }
    (narrow, closed)
}

/// The schema with some of its fields taken away, from holders that are then open: what was right for it is right still.
pub fn without_some(random: &mut Random, schema: &Schema) -> Schema {
    let mut less = schema.clone();
    let often = random.pick(&[0, 15, 30, 50]);
    for holder in std::iter::once(&mut less.record).chain(&mut less.arguments) {
        take_some(random, &mut holder.open, &mut holder.fields, often);
    }
    less
}

fn take_some(random: &mut Random, open: &mut bool, fields: &mut Vec<Field>, often: usize) {
    let before = fields.len();
    fields.retain(|_| !random.chance(often));
    *open |= fields.len() < before;
    fields.iter_mut().for_each(|field| take_below(random, field, often));
}

fn take_below(random: &mut Random, field: &mut Field, often: usize) {
    if let Some(items) = &mut field.items {
        take_below(random, items, often);
    }
    take_some(random, &mut field.open, &mut field.properties, often);
}

/// A schema of many objects, half of them open.
pub fn objects(random: &mut Random) -> Schema {
    let fields = |random: &mut Random, most: usize| -> Vec<Field> {
        let count = random.between(0, most);
        (0..count).map(|_| an_object(random, 3)).collect()
    };
    let record = holder(random.chance(50), fields(random, 5));
    let arguments = random.chance(60).then(|| holder(random.chance(50), fields(random, 3)));
    schema(record, arguments)
}

/// An object, an array or map of them, or now and then any other field.
fn an_object(random: &mut Random, depth: usize) -> Field {
    let mut made = field(schemas::name(random), random.pick(&[OBJECT, OBJECT, OBJECT, ARRAY, ARRAY, MAP]));
    made.open = random.chance(50);
    match made.kind {
        _ if depth == 1 || random.chance(15) => schemas::a_field(random, 1),
        OBJECT => {
            let count = random.between(1, 3);
            Field { properties: sorted((0..count).map(|_| an_object(random, depth - 1)).collect()), ..made }
        }
        _ => Field { items: element(an_object(random, depth - 1)), ..made },
    }
}

/// The schema with marks open here and there; and the numbers of those that are closed.
pub fn with_some_open(random: &mut Random, schema: &Schema) -> (Schema, Vec<u32>) {
    let mut schema = numbered(schema);
    let often = random.pick(&[0, 0, 20, 50]);
    marks(&mut schema).into_iter().for_each(|mark| *mark.open = random.chance(often));
    let closed = marks(&mut schema).into_iter().filter(|mark| !*mark.open).map(|mark| mark.number).collect();
    (schema, closed)
}

/// A way that a reference can go to a holder, the number of the holder's mark, and whether that is 1.
pub struct Way {
    pub path: String,
    pub number: u32,
    pub open: bool,
}

/// The ways to the record, the arguments and the objects below them.
pub fn ways(setting: &Setting, schema: &Schema) -> Vec<Way> {
    let mut found = Vec::new();
    let record = Some((&schema.record, 1));
    let arguments = schema.arguments.as_ref().map(|arguments| (arguments, 0));
    for (root, holder) in [("fields", record), ("old_fields", record), ("args", arguments)] {
        if let Some((holder, number)) = holder.filter(|_| setting.may_read(root)) {
            let path = format!("${root}");
            ways_below(setting.semantics > 1, &path, &holder.fields, &mut found);
            found.push(Way { path, number, open: holder.open });
        }
    }
    found
}

/// A name with a dot is reached by no path, and neither is an empty one.
fn ways_below(service: bool, path: &str, fields: &[Field], found: &mut Vec<Way>) {
    for field in fields.iter().filter(|field| !field.name.is_empty() && !field.name.contains('.')) {
        ways_at(service, format!("{path}.{}", field.name), field, found);
    }
}

fn ways_at(service: bool, path: String, field: &Field, found: &mut Vec<Way>) {
    match (field.kind, &field.items) {
        (OBJECT, _) => {
            ways_below(service, &path, &field.properties, found);
            found.push(Way { path, number: field.entry, open: field.open });
        }
        (ARRAY, Some(element)) if service => ways_at(service, format!("{path}.0"), element, found),
        _ => {}
    }
}
