//! The three entries of the comparison. As a child of `validation` this module sees the private functions that are called.

use super::{validate_reference_path, validate_rule_definition, validate_template, Reader, Scope, ScopeKind};
use crate::{DefinitionError, ObjectSchema, RuleDefinition, Semantics};
use serde_json::Value;
use std::cell::Cell;

/// What a call fixes besides the rule: kind 1 to 8, semantics 1 to 4, the schemas, the label, and a name table if it is not the stock one.
pub struct Setting<'a> {
    pub kind: u64,
    pub semantics: u64,
    pub fields: &'a ObjectSchema,
    pub args: Option<&'a ObjectSchema>,
    pub label: &'a str,
    pub table: Option<Table>,
}

/// For each kind, from 1 on, which of the names it may read.
pub type Table = [[bool; 9]; 8];

const NAMES: [&str; 9] = ["$id", "$entity", "$version", "$fields", "$state", "$to_state", "$from_state", "$args", "$old_fields"];

thread_local! {
    /// The table that takes the place of the Rust's own name test during a call, if any.
    static TABLE: Cell<Option<Table>> = const { Cell::new(None) };
}

/// What the table says of a bare reference; none where there is no table. `Scope::allows` begins with this question (see ../build).
pub(super) fn allowed(kind: ScopeKind, expression: &str) -> Option<bool> {
    let table = TABLE.get()?;
    let (_, row) = (1..).zip(table).find(|(number, _)| scope_kind(*number) == kind)?;
    Some(NAMES.iter().zip(row).any(|(name, mark)| *name == expression && mark))
}

/// Takes the table away again, after a panic too.
struct Lent;

impl Lent {
    fn new(table: Option<Table>) -> Self {
        TABLE.set(table);
        Self
    }
}

impl Drop for Lent {
    fn drop(&mut self) {
        TABLE.set(None);
    }
}

impl Setting<'_> {
    fn scope(&self) -> Scope<'_> {
        Scope { kind: scope_kind(self.kind), fields: self.fields, args: self.args, binders: None, semantics: semantics(self.semantics) }
    }
}

pub fn rule(rule: &RuleDefinition, setting: &Setting<'_>) -> Result<(), DefinitionError> {
    let _lent = Lent::new(setting.table);
    validate_rule_definition(rule, setting.label, setting.scope())
}

pub fn template(value: &Value, setting: &Setting<'_>) -> Result<(), DefinitionError> {
    let _lent = Lent::new(setting.table);
    validate_template(value, setting.label, setting.scope())
}

/// One path of the record's fields, without `$fields.`: reader 1 or 2, semantics 1 to 4.
pub fn key(fields: &ObjectSchema, path: &str, reader: u64, semantics: u64) -> Result<(), String> {
    let service = self::semantics(semantics).has_service_semantics();
    validate_reference_path(fields, path, "field", self::reader(reader), service)
}

/// Whether the instant reader takes the text; the reader itself may be private to its crate.
pub fn is_instant(text: &str) -> bool {
    crate::timestamp::parse(text).is_some()
}

/// The words with which a message says what a kind may read: its noun and the list.
pub fn readable(kind: u64) -> (&'static str, &'static str) {
    let kind = scope_kind(kind);
    (kind.what(), kind.allowed())
}

fn scope_kind(number: u64) -> ScopeKind {
    match number {
        1 => ScopeKind::Invariant,
        2 => ScopeKind::Precondition,
        3 => ScopeKind::CreateTemplate,
        4 => ScopeKind::OperationTemplate,
        5 => ScopeKind::OutcomeSelector,
        6 => ScopeKind::CreateSelector,
        7 => ScopeKind::CreateSet,
        8 => ScopeKind::CreateOutcomeTemplate,
        _ => unreachable!("refusal 1 comes before the Rust is asked"),
    }
}

fn semantics(number: u64) -> Semantics {
    match number {
        1 => Semantics::Kernel1,
        2 => Semantics::Service1,
        3 => Semantics::Service2,
        4 => Semantics::Service3,
        _ => unreachable!("refusal 1 comes before the Rust is asked"),
    }
}

fn reader(number: u64) -> Reader {
    match number {
        1 => Reader::Kernel,
        2 => Reader::Projection,
        _ => unreachable!("refusal 1 comes before the Rust is asked"),
    }
}
