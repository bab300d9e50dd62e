#![doc = include_str!("../README.md")]
#![forbid(unsafe_op_in_unsafe_fn)]
#![deny(unsafe_code)]
#![warn(missing_docs)]
#![cfg_attr(
    not(test),
    deny(
        clippy::arithmetic_side_effects,
        clippy::expect_used,
        clippy::indexing_slicing,
        clippy::panic,
        clippy::unreachable,
        clippy::unwrap_used
    )
)]

mod book;
mod build;
mod checks;
mod constants;
mod defect;
mod definition;
mod detail;
pub mod entries;
mod finite;
mod identity;
mod instant;
pub mod json;
pub mod limits;
mod near;
mod number;
mod numbered;
mod openings;
pub mod raw;
mod refusal;
mod settings;
mod sheets;
mod table;
mod tally;
mod verdict;
mod vocabulary;
mod wall;
mod widening;

pub use book::{Book, BookError, BookSheet};
pub use build::{BuildError, Condition, Field, Rule, Schema, Template, Value};
pub use checks::{Check, Checked};
pub use constants::Constant;
pub use defect::{Defect, DefectNumber, Family};
pub use definition::{Definition, DefinitionError, Form, Place, Scope};
pub use detail::{CollectionFault, Detail, InstantFault, ReferenceFault, Side};
pub use finite::{Finite, finite};
pub use identity::{Identity, Packed, identity};
pub use instant::{Instant, instant};
pub use json::JsonError;
pub use openings::opened;
pub use refusal::Refusal;
pub use settings::{Kind, Name, Reader, Semantics, UnknownName};
pub use sheets::{RuleBytes, RuleSheet, SchemaBytes, SchemaSheet};
pub use table::{Table, TableError};
pub use tally::Tally;
pub use verdict::{PathVerdict, Verdict};
pub use vocabulary::{CompareOp, FieldKind, Nesting, Operator};
pub use widening::{Breach, BreachReason, Widening, widens};

use limits::{PATH_BYTES, RESULT_BYTES};

/// Checks a rule or a template, as the first letter of its sheet says, against a schema.
///
/// The label begins the path of a defect. It is text of at most 256 bytes. Which names may be read is decided by the stock table; a [`Check`] can
/// be lent another.
///
/// ```
/// use entity_rules::{check, Field, FieldKind, Kind, Schema, Semantics, Template, Value};
///
/// let schema = Schema::new().field(Field::new("state", FieldKind::String)).sheet()?;
/// let template = Template::new(Value::object([("was", "$fields.state"), ("by", "$args.user")])).sheet()?;
///
/// let verdict = check(Kind::OperationTemplate, Semantics::Kernel1, "event", &schema, &template)?;
/// assert_eq!(verdict.defect().map(|defect| defect.path.as_str()), Some("event.by"));
/// # Ok::<(), Box<dyn std::error::Error>>(())
/// ```
///
/// # Errors
///
/// If the label or one of the sheets is refused.
pub fn check<'a>(
    kind: Kind,
    semantics: Semantics,
    label: impl AsRef<[u8]>,
    schema: impl Into<SchemaBytes<'a>>,
    rule: impl Into<RuleBytes<'a>>,
) -> Result<Verdict, Refusal> {
    let rule = rule.into();
    match rule.0.first() {
        Some(b'T') => check_template(kind, semantics, label, schema, rule),
        _ => check_rule(kind, semantics, label, schema, rule),
    }
}

/// Checks a rule against a schema.
///
/// ```
/// use entity_rules::{check_rule, Condition, Field, FieldKind, Kind, Rule, Schema, Semantics};
///
/// let bars = Field::new("bars", FieldKind::Array).items(FieldKind::Integer);
/// let schema = Schema::new().field(bars).sheet()?;
/// let rule = Rule::new(Condition::gt("$fields.bars.count", 0)).name("has bars").sheet()?;
///
/// let verdict = check_rule(Kind::Invariant, Semantics::Service1, "has_bars", &schema, &rule)?;
/// assert!(verdict.is_accepted());
/// # Ok::<(), Box<dyn std::error::Error>>(())
/// ```
///
/// # Errors
///
/// If the label or one of the sheets is refused; a template's sheet is.
pub fn check_rule<'a>(
    kind: Kind,
    semantics: Semantics,
    label: impl AsRef<[u8]>,
    schema: impl Into<SchemaBytes<'a>>,
    rule: impl Into<RuleBytes<'a>>,
) -> Result<Verdict, Refusal> {
    let (schema, rule) = (schema.into().0, rule.into().0);
    call(raw::rule, kind, semantics, label.as_ref(), schema, rule)
}

/// Checks a template against a schema.
///
/// ```
/// use entity_rules::{check_template, Kind, Schema, Semantics, Template};
///
/// let schema = Schema::new().open().sheet()?;
/// let template = Template::new("$fields.anything").sheet()?;
///
/// let verdict = check_template(Kind::CreateTemplate, Semantics::Service2, "event", &schema, &template)?;
/// assert_eq!(verdict.passed(), 1);
/// # Ok::<(), Box<dyn std::error::Error>>(())
/// ```
///
/// # Errors
///
/// If the label or one of the sheets is refused; a rule's sheet is.
pub fn check_template<'a>(
    kind: Kind,
    semantics: Semantics,
    label: impl AsRef<[u8]>,
    schema: impl Into<SchemaBytes<'a>>,
    rule: impl Into<RuleBytes<'a>>,
) -> Result<Verdict, Refusal> {
    let (schema, rule) = (schema.into().0, rule.into().0);
    call(raw::template, kind, semantics, label.as_ref(), schema, rule)
}

/// Checks one path of the record's fields for a reader, as a projection names its key.
///
/// The path is given without the `$fields.` that a reference has before it. It is text of at most 512 bytes.
///
/// ```
/// use entity_rules::{check_path, Field, FieldKind, Reader, ReferenceFault, Schema, Semantics};
///
/// let bars = Field::new("bars", FieldKind::Array).items(FieldKind::Integer);
/// let schema = Schema::new().field(bars).field(Field::new("yarn", FieldKind::String)).sheet()?;
///
/// let filed = |path| check_path(Semantics::Service1, Reader::Projection, path, &schema);
/// assert!(filed("yarn")?.is_accepted());
/// assert!(filed("bars.count")?.is_accepted());
/// assert_eq!(filed("yarn.count")?.fault(), Some(ReferenceFault::TextCount));
///
/// // A rule can read how long a text is.
/// assert!(check_path(Semantics::Service1, Reader::Kernel, "yarn.count", &schema)?.is_accepted());
/// # Ok::<(), Box<dyn std::error::Error>>(())
/// ```
///
/// # Errors
///
/// If the path or the schema sheet is refused.
pub fn check_path<'a>(
    semantics: Semantics,
    reader: Reader,
    path: impl AsRef<[u8]>,
    schema: impl Into<SchemaBytes<'a>>,
) -> Result<PathVerdict, Refusal> {
    let schema = schema.into().0;
    let mut result = [0; RESULT_BYTES];
    let (semantics, reader) = (semantics.number().into(), reader.number().into());
    raw::path(semantics, reader, path.as_ref(), schema, &mut result);
    verdict::path_answer(raw::numbers(&result))
}

/// Checks every sheet of a rule book against a schema that is read once, and tallies how they fare.
///
/// What counts is what [`check`] answers for each sheet alone. The label is refused as there and otherwise without influence, since a tally has no paths.
/// Which names may be read is decided by the stock table; a [`Check`] can be lent another.
///
/// ```
/// use entity_rules::{tally, Book, Condition, DefectNumber, Field, FieldKind, Kind, Rule, Schema, Semantics};
///
/// let schema = Schema::new().field(Field::new("yarn", FieldKind::String)).sheet()?;
/// let mut book = Book::new();
/// for field in ["yarn", "dye", "width"] {
///     book.extend([Rule::new(Condition::exists(format!("$fields.{field}").as_str())).sheet()?]);
/// }
///
/// let tally = tally(Kind::Invariant, Semantics::Service1, "mill", &schema, &book)?;
/// assert_eq!((tally.read, tally.accepted), (3, 1));
/// assert_eq!(tally.count(DefectNumber::Reference), 2);
/// # Ok::<(), Box<dyn std::error::Error>>(())
/// ```
///
/// # Errors
///
/// If the label is refused, or the file is not a book. A schema sheet that is not well formed is not an error here: every sheet counts as refused by 4, as each check would say.
pub fn tally(
    kind: Kind,
    semantics: Semantics,
    label: impl AsRef<[u8]>,
    schema: &[u8],
    book: impl AsRef<[u8]>,
) -> Result<Tally, Refusal> {
    Check::new(kind, semantics, &label).tally(schema, book)
}

/// Checks every sheet of a rule book against a schema, and prints how they fare on pages of 80 columns and 60 lines, for the wall.
///
/// A page has a heading, a line for each of 58 sheets, and a foot with the page's own count of accepted sheets. A line has the sheet's serial number, the number, family and place of its answer,
/// the checks passed, and the path, which is cut with `>` in the last column if it is longer. A book without sheets has no page. The label begins each path.
///
/// ```
/// use entity_rules::{wall, Book, Kind, Semantics};
///
/// let book = Book::new().sheet("R,-,-,\nC,1,1,\n").sheet("R,-,-,\nC,5,0,\nV,5,12,$fields.yarn\n");
/// let pages = wall(Kind::Invariant, Semantics::Kernel1, "mill", b"H,0,0,-,0\n", &book)?;
/// let lines: Vec<&str> = pages.lines().map(str::trim_end).collect();
///
/// assert_eq!(lines.len(), 60);
/// assert_eq!(lines[0], "PAGE     1");
/// assert_eq!(lines[1], "    1   0  0     0     4");
/// assert_eq!(lines[2], "    2  18  1     3     4 mill.assert.exists");
/// assert_eq!(lines[59], "ACCEPTED  1");
/// # Ok::<(), entity_rules::Refusal>(())
/// ```
///
/// # Errors
///
/// As for [`tally`].
pub fn wall(
    kind: Kind,
    semantics: Semantics,
    label: impl AsRef<[u8]>,
    schema: &[u8],
    book: impl AsRef<[u8]>,
) -> Result<String, Refusal> {
    Check::new(kind, semantics, &label).wall(schema, book)
}

/// Finds the fewest open marks of a schema that must go from 0 to 1 for a rule or template to be accepted.
///
/// Where some set of openings gives acceptance, there is one that every other such set contains, and this is returned: 0 stands for the mark of the arguments, 1 for that of the
/// record, any other number for that of the field with this entry, and the marks rise. What is accepted as it is has the set without marks, and what no opening helps has none.
/// [`opened`] opens the marks of a set. Which names may be read is decided by the stock table; a [`Check`] can be lent another.
///
/// ```
/// use entity_rules::{check_rule, opened, openings, Condition, Field, FieldKind, Kind, Rule, Schema, Semantics};
///
/// let bar = Field::element(FieldKind::Object).property(Field::new("threaded", FieldKind::Boolean));
/// let schema = Schema::new().field(Field::new("bars", FieldKind::Array).items(bar)).sheet()?;
/// let rule = Rule::new(Condition::for_all("bar", "$fields.bars", Condition::lt("$bar.tension", 40))).sheet()?;
///
/// // Entry 3 is the element of `bars`.
/// let marks = openings(Kind::Invariant, Semantics::Service1, &schema, &rule)?.ok_or("a set")?;
/// assert_eq!(marks, [3]);
/// let wider = opened(&schema, &marks)?;
/// assert!(check_rule(Kind::Invariant, Semantics::Service1, "tension", &wider, &rule)?.is_accepted());
///
/// // No opening brings a name that no kind may read.
/// let rule = Rule::new(Condition::exists("$tension")).sheet()?;
/// assert_eq!(openings(Kind::Invariant, Semantics::Service1, &schema, &rule)?, None);
/// # Ok::<(), Box<dyn std::error::Error>>(())
/// ```
///
/// # Errors
///
/// If one of the sheets is refused.
pub fn openings<'a>(
    kind: Kind,
    semantics: Semantics,
    schema: impl Into<SchemaBytes<'a>>,
    rule: impl Into<RuleBytes<'a>>,
) -> Result<Option<Vec<u32>>, Refusal> {
    Check::new(kind, semantics, "").openings(schema, rule)
}

/// The sheet of a rule in JSON (RFC 8259), shaped as entity-runtime reads it.
///
/// A rule is an object with `assert`, and perhaps `name` and `message`; a condition is `true`, `false` or an object with one operator. Numbers stay as they are written, and members of values in the
/// order in which they are given. docs/FORMAT.md, "Rules as JSON", has every shape.
///
/// ```
/// use entity_rules::{check_rule, rule_from_json, Field, FieldKind, Kind, Schema, Semantics};
///
/// let rule = rule_from_json(r#"{"name": "has bars", "assert": {"gt": ["$fields.bars.count", 0]}}"#)?;
/// assert_eq!(rule, b"R,8,-,has bars\nC,10,0,\nV,5,18,$fields.bars.count\nV,4,1,0\n");
///
/// let schema = Schema::new().field(Field::new("bars", FieldKind::Array)).sheet()?;
/// assert!(check_rule(Kind::Invariant, Semantics::Service1, "has_bars", &schema, &rule)?.is_accepted());
/// # Ok::<(), Box<dyn std::error::Error>>(())
/// ```
///
/// # Errors
///
/// If the text is not the JSON of a rule, or the sheet would pass a limit.
pub fn rule_from_json(text: impl AsRef<[u8]>) -> Result<RuleSheet, JsonError> {
    json::rule_from_json(text.as_ref())
}

/// The JSON of a rule's sheet: compact, without the members that are absent, and with no more escapes than JSON asks for.
///
/// [`rule_from_json`] makes the same sheet of it again.
///
/// ```
/// use entity_rules::{rule_from_json, rule_to_json, Condition, Rule};
///
/// let sheet = Rule::new(Condition::starts_with("$fields.yarn", "\"w\"")).message("wool").sheet()?;
/// let text = rule_to_json(&sheet)?;
/// assert_eq!(text, r#"{"assert":{"starts_with":["$fields.yarn","\"w\""]},"message":"wool"}"#);
/// assert_eq!(rule_from_json(text)?, sheet);
/// # Ok::<(), Box<dyn std::error::Error>>(())
/// ```
///
/// # Errors
///
/// If the sheet is not well formed, or a template's.
pub fn rule_to_json<'a>(rule: impl Into<RuleBytes<'a>>) -> Result<String, Refusal> {
    json::rule_to_json(rule.into().0)
}

type Entry = fn(u64, u64, &[u8], &[u8], &[u8], &mut [u8], &mut [u8]) -> u32;

/// One call with buffers of its own.
fn call(
    entry: Entry,
    kind: Kind,
    semantics: Semantics,
    label: &[u8],
    schema: &[u8],
    rule: &[u8],
) -> Result<Verdict, Refusal> {
    let mut path = vec![0; PATH_BYTES];
    let mut result = [0; RESULT_BYTES];
    let settings = (kind.number().into(), semantics.number().into());
    let number = entry(
        settings.0,
        settings.1,
        label,
        schema,
        rule,
        &mut path,
        &mut result,
    );
    // The message of a defect takes the other call; what is accepted is not checked again.
    if DefectNumber::from_number(number).is_some() {
        let checked = Check::new(kind, semantics, label).run(schema, rule)?;
        return Ok(checked.verdict);
    }
    verdict::answer(raw::numbers(&result), &path, None)
}
