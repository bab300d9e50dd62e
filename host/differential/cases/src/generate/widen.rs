//! Widened schemas, and schemas that are changed otherwise.

use crate::case::Case;
use crate::generate::build::{field, sorted, STRING};
use crate::generate::names::Names;
use crate::generate::schemas::{a_field, schema as a_schema};
use crate::generate::setting::Pair;
use crate::random::Random;
use model::trees::{Field, Holder, Schema};

/// What a widening may change.
#[derive(Clone, Copy, PartialEq, Eq)]
pub enum Level {
    /// Open marks, from 0 to 1.
    Marks,
    /// Also more fields under holders that are closed, and arguments that appear.
    Any,
}

/// A case whose schema is a widening of the one its rule was made for, or has that one as a widening.
pub fn case(random: &mut Random, names: &Names) -> Case {
    let slip = random.between(0, 20);
    let mut pair = Pair::new(random, names, slip);
    pair.schema = if random.chance(50) { widened(random, &pair.schema, Level::Any) } else { unwidened(random, &pair.schema, Level::Any) };
    pair.case()
}

/// A schema of which the given one is a widening, so that rules made for the given one read what is not there yet.
pub fn unwidened(random: &mut Random, schema: &Schema, level: Level) -> Schema {
    let mut narrow = schema.clone();
    unwiden(random, &mut narrow.record.open, &mut narrow.record.fields, level);
    if level == Level::Any && random.chance(10) {
        narrow.arguments = None;
    }
    if let Some(arguments) = &mut narrow.arguments {
        unwiden(random, &mut arguments.open, &mut arguments.fields, level);
    }
    narrow
}

/// Only what is closed in the narrower schema may lack fields there.
fn unwiden(random: &mut Random, open: &mut bool, fields: &mut Vec<Field>, level: Level) {
    *open &= random.chance(50);
    if level == Level::Any && !*open {
        fields.retain(|_| random.chance(85));
    }
    for kept in fields {
        unwiden_field(random, kept, level);
    }
}

fn unwiden_field(random: &mut Random, field: &mut Field, level: Level) {
    if let Some(items) = &mut field.items {
        unwiden_field(random, items, level);
    }
    unwiden(random, &mut field.open, &mut field.properties, level);
}

/// A widening of the schema.
pub fn widened(random: &mut Random, schema: &Schema, level: Level) -> Schema {
    let mut wide = schema.clone();
    widen_holder(random, &mut wide.record, level);
    match &mut wide.arguments {
        Some(arguments) => widen_holder(random, arguments, level),
        None if level == Level::Any && random.chance(50) => wide.arguments = Some(a_schema(random, 2).record),
        None => {}
    }
    wide
}

fn widen_holder(random: &mut Random, holder: &mut Holder, level: Level) {
    widen(random, &mut holder.open, &mut holder.fields, level);
}

fn widen(random: &mut Random, open: &mut bool, fields: &mut Vec<Field>, level: Level) {
    for kept in fields.iter_mut() {
        widen_field(random, kept, level);
    }
    if level == Level::Any && !*open && random.chance(35) {
        let added = (0..random.between(1, 2)).map(|_| a_field(random, 2)).filter(|new| !fields.iter().any(|kept| kept.name == new.name));
        let added: Vec<_> = added.collect();
        *fields = sorted(fields.drain(..).chain(added).collect());
    }
    *open |= random.chance(30);
}

fn widen_field(random: &mut Random, field: &mut Field, level: Level) {
    if let Some(items) = &mut field.items {
        widen_field(random, items, level);
    }
    widen(random, &mut field.open, &mut field.properties, level);
}

/// A change that is not a widening; nothing where the schema has nothing to change that way.
pub fn narrowed(random: &mut Random, schema: &Schema) -> Option<Schema> {
    let mut other = schema.clone();
    match random.below(8) {
        0 => other.arguments.take().map(drop)?,
        1 => drop_open(&mut other.record)?,
        2 => add_under_open(&mut other.record)?,
        change => change_field(random, &mut other.record, change)?,
    }
    Some(other)
}

fn drop_open(record: &mut Holder) -> Option<()> {
    std::mem::take(&mut record.open).then_some(())
}

fn add_under_open(record: &mut Holder) -> Option<()> {
    let fields = std::mem::take(&mut record.fields);
    record.fields = sorted(fields.into_iter().chain([field("added", STRING)]).collect());
    record.open.then_some(())
}

/// Another kind, another tag, an element gone or come, or the field itself gone.
fn change_field(random: &mut Random, record: &mut Holder, change: usize) -> Option<()> {
    if record.fields.is_empty() {
        return None;
    }
    let at = random.below(record.fields.len());
    let changed = &mut record.fields[at];
    match change {
        3 => changed.kind = changed.kind % 12 + 1,
        4 => changed.tag = if changed.tag.is_some() { None } else { Some(String::new()) },
        5 => changed.items = if changed.items.is_some() { None } else { super::build::element(field("", STRING)) },
        6 => drop(record.fields.remove(at)),
        _ => drop(changed.items.as_mut().map(|items| items.kind = items.kind % 12 + 1)?),
    }
    Some(())
}
