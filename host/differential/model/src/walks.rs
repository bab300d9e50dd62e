//! What a reference or a key may read and what a quantifier may walk over (docs/FORMAT.md, "References", "Keys" and "Collections").

use super::settings::{Reader, Setting};
use super::trees::{Data, Field, Holder, Schema, Value};

const STRING: u8 = 1;
const ARRAY: u8 = 6;
const OBJECT: u8 = 7;
const JSON: u8 = 8;
const MAP: u8 = 10;
const UNION: u8 = 11;

/// The binders around a condition, outermost first: name, and the element's field where it is known.
pub type Environment<'t> = [(&'t str, Option<&'t Field>)];

/// Why something cannot be read: the detail, and where that showed, for the message.
#[derive(Clone, Copy, Debug)]
pub struct Fault<'t> {
    pub detail: u32,
    /// The field that refuses; none at a root, and where no path was walked.
    pub field: Option<&'t Field>,
    /// What is left of the path, from the segment at fault on.
    pub left: &'t str,
    /// Whether the path began at a binder's element.
    pub is_bound: bool,
}

impl Fault<'_> {
    /// Found without a walk.
    pub fn settled(detail: u32) -> Self {
        early(detail, "")
    }
}

/// A fault that shows before any field is reached.
fn early(detail: u32, left: &str) -> Fault<'_> {
    Fault {
        detail,
        field: None,
        left,
        is_bound: false,
    }
}

/// A fault at a field.
fn at<'t>(field: &'t Field, detail: u32, left: &'t str) -> Fault<'t> {
    Fault {
        field: Some(field),
        ..early(detail, left)
    }
}

/// The innermost binder of that name.
fn bound<'t>(name: &str, binders: &Environment<'t>) -> Option<Option<&'t Field>> {
    binders
        .iter()
        .rev()
        .find(|(bind, _)| *bind == name)
        .map(|&(_, element)| element)
}

/// Up to the first dot, and what follows it.
pub fn split(path: &str) -> (&str, Option<&str>) {
    match path.split_once('.') {
        Some((first, rest)) => (first, Some(rest)),
        None => (path, None),
    }
}

fn named<'t>(name: &str, fields: &'t [Field]) -> Option<&'t Field> {
    fields.iter().find(|field| field.name == name)
}

/// `0`, or digits without a leading zero.
pub fn is_ordinal(segment: &str) -> bool {
    segment == "0"
        || (!segment.is_empty()
            && !segment.starts_with('0')
            && segment.bytes().all(|byte| byte.is_ascii_digit()))
}

/// Where a union keeps its payload.
pub fn content_key(tag: &str) -> &'static str {
    match tag {
        "value" => "content",
        _ => "value",
    }
}

/// Whether a text that begins with `$` can be read; else a fault of 18.
pub fn validate_reference<'t>(
    expression: &'t str,
    setting: &Setting,
    schema: &'t Schema,
    binders: &Environment<'t>,
) -> Result<(), Fault<'t>> {
    let (name, path) = split(&expression[1..]);
    if let Some(element) = bound(name, binders) {
        return match (element, path) {
            (Some(field), Some(path)) => {
                let bound = |fault| Fault {
                    is_bound: true,
                    ..fault
                };
                walk_field_path(field, path, Reader::Kernel, setting.service).map_err(bound)
            }
            _ => Ok(()),
        };
    }
    let Some(path) = path else {
        return if setting.allows(name) {
            Ok(())
        } else {
            Err(Fault::settled(12))
        };
    };
    let holder = match name {
        "fields" | "old_fields" => Some(&schema.record),
        "args" => schema.arguments.as_ref(),
        _ => return Err(Fault::settled(12)),
    };
    match holder {
        Some(holder) if setting.allows(name) => {
            validate_reference_path(holder, path, Reader::Kernel, setting.service)
        }
        _ => Err(Fault::settled(11)),
    }
}

/// The lookup at a root, and the walk on from the field found there.
pub fn validate_reference_path<'t>(
    holder: &'t Holder,
    path: &'t str,
    reader: Reader,
    service: bool,
) -> Result<(), Fault<'t>> {
    let (root, rest) = split(path);
    if root.is_empty() {
        return Err(early(1, path));
    }
    match (named(root, &holder.fields), rest) {
        (None, _) if holder.open => Ok(()),
        (None, _) => Err(early(2, path)),
        (Some(_), None) => Ok(()),
        (Some(field), Some(rest)) => walk_field_path(field, rest, reader, service),
    }
}

/// What one segment of a path leads to.
enum Step<'t> {
    /// Nothing: the detail.
    Fail(u32),
    /// Something without members: the detail if more follows.
    Last(u32),
    /// Something that no schema describes.
    Free,
    Into(&'t Field),
}

/// Walks a path from a field, segment by segment.
fn walk_field_path<'t>(
    field: &'t Field,
    path: &'t str,
    reader: Reader,
    service: bool,
) -> Result<(), Fault<'t>> {
    let (segment, rest) = split(path);
    if segment.is_empty() {
        return Err(at(field, 1, path));
    }
    let step = if service {
        service_step(field, segment, reader)
    } else {
        kernel_step(field, segment)
    };
    match (step, rest) {
        (Step::Fail(detail), _) | (Step::Last(detail), Some(_)) => Err(at(field, detail, path)),
        (Step::Into(next), Some(rest)) => walk_field_path(next, rest, reader, service),
        (Step::Last(_), None) | (Step::Free, _) | (Step::Into(_), None) => Ok(()),
    }
}

fn kernel_step<'t>(field: &'t Field, segment: &str) -> Step<'t> {
    match field.kind {
        JSON => Step::Free,
        OBJECT => object_step(field, segment),
        _ => Step::Fail(10),
    }
}

fn object_step<'t>(field: &'t Field, segment: &str) -> Step<'t> {
    match named(segment, &field.properties) {
        Some(property) => Step::Into(property),
        None if field.open => Step::Free,
        None => Step::Fail(3),
    }
}

fn service_step<'t>(field: &'t Field, segment: &str, reader: Reader) -> Step<'t> {
    match field.kind {
        JSON => Step::Free,
        OBJECT => object_step(field, segment),
        UNION => union_step(field, segment),
        // What follows is not looked at: the projection reads no text's length at all.
        STRING if segment == "count" && reader == Reader::Projection => Step::Fail(13),
        STRING | ARRAY | MAP if segment == "count" => Step::Last(6),
        ARRAY if is_ordinal(segment) => field.items.as_deref().map_or(Step::Free, Step::Into),
        ARRAY => Step::Fail(4),
        MAP => Step::Fail(5),
        _ if segment == "count" => Step::Fail(9),
        _ => Step::Fail(10),
    }
}

fn union_step<'t>(field: &'t Field, segment: &str) -> Step<'t> {
    let tag = field.tag.as_deref().unwrap_or_default();
    if segment == tag {
        Step::Last(7)
    } else if segment == content_key(tag) {
        Step::Free
    } else {
        Step::Fail(8)
    }
}

/// The element of the collection that `in` names, none where it is not known; else a fault of 22.
pub fn collection_element<'t>(
    over: &'t Value,
    schema: &'t Schema,
    binders: &Environment<'t>,
) -> Result<Option<&'t Field>, Fault<'t>> {
    let Data::String(expression) = &over.data else {
        return Err(Fault::settled(1));
    };
    // The first character is dropped unseen; where it has more than one byte, or there is none, no name is left.
    let (name, path) = split(expression.get(1..).unwrap_or_default());
    if let Some(element) = bound(name, binders) {
        return match (element, path) {
            (Some(field), Some(path)) => element_of(field_at(field, path)?),
            _ => Ok(None),
        };
    }
    let holder = match (expression.starts_with('$'), name) {
        (true, "fields" | "old_fields") => Some(&schema.record),
        (true, "args") => schema.arguments.as_ref(),
        _ => return Err(Fault::settled(5)),
    };
    let Some(path) = path else {
        return Err(Fault::settled(5));
    };
    let (root, rest) = split(path);
    let holder = holder
        .expect("the references of `in` were checked first: absent arguments are detail 11 of 18");
    match (named(root, &holder.fields), rest) {
        (Some(field), None) => element_of(Some(field)),
        (Some(field), Some(rest)) => element_of(field_at(field, rest)?),
        (None, _) if holder.open => Ok(None),
        (None, _) => unreachable!(
            "the references of `in` were checked first: an unknown root is detail 2 of 18"
        ),
    }
}

/// The field that a path leads to from another, none where no schema describes it.
fn field_at<'t>(field: &'t Field, path: &'t str) -> Result<Option<&'t Field>, Fault<'t>> {
    let (segment, rest) = split(path);
    let next = match field.kind {
        JSON | UNION => None,
        OBJECT => match named(segment, &field.properties) {
            None if !field.open => return Err(at(field, 2, path)),
            property => property,
        },
        ARRAY if is_ordinal(segment) => field.items.as_deref(),
        _ => return Err(at(field, 3, path)),
    };
    match (next, rest) {
        (Some(next), Some(rest)) => field_at(next, rest),
        _ => Ok(next),
    }
}

/// The element of a field that is an array or a map.
fn element_of(field: Option<&Field>) -> Result<Option<&Field>, Fault<'_>> {
    match field {
        None => Ok(None),
        Some(field) if matches!(field.kind, ARRAY | MAP) => Ok(field.items.as_deref()),
        Some(field) => Err(at(field, 4, "")),
    }
}
