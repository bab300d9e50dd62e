//! Schemas of a definition as schema sheets.

use super::part::At;
use crate::build::{Field, Schema};
use crate::limits::MAX_FIELD_NESTING;
use crate::vocabulary::FieldKind;

/// The record's schema, without arguments.
pub fn record(schema: &At<'_>) -> Schema {
    let record = schema
        .sorted("fields")
        .into_iter()
        .fold(Schema::new(), |record, (name, part)| {
            record.field(field(name, &part, 1))
        });
    match schema.is_true("additional_fields") {
        true => record.open(),
        false => record,
    }
}

/// The record's schema with these arguments, which are there even where the file has none.
pub fn with_arguments(record: &Schema, arguments: Option<&At<'_>>) -> Schema {
    let record = record.clone().arguments();
    let Some(arguments) = arguments else {
        return record;
    };
    let schema = arguments
        .sorted("fields")
        .into_iter()
        .fold(record, |schema, (name, part)| {
            schema.argument(field(name, &part, 1))
        });
    match arguments.is_true("additional_fields") {
        true => schema.open_arguments(),
        false => schema,
    }
}

/// A field that lies so deep. What lies deeper than a sheet can say is left out, since the sheet is refused for the field that holds it.
fn field(name: &str, part: &At<'_>, depth: usize) -> Field {
    let kind = FieldKind::ALL.iter().copied();
    let kind = kind.clone().find(|kind| kind.text() == part.text("type"));
    let mut field = Field::new(name, kind.unwrap_or(FieldKind::String));
    if part.is_true("additional_properties") {
        field = field.open();
    }
    if let Some(tag) = part.option("tag") {
        field = field.tag(tag.part.said());
    }
    if depth > MAX_FIELD_NESTING {
        return field;
    }
    let below = depth.saturating_add(1);
    if let Some(items) = part.option("items") {
        field = field.items(self::field("", &items, below));
    }
    let properties = part.sorted("properties").into_iter();
    properties.fold(field, |field, (name, part)| {
        field.property(self::field(name, &part, below))
    })
}
