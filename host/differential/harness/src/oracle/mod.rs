//! The oracle: the Rust, called on the trees of two sheets. It sees neither sheets nor places nor the passed count.

mod convert;
pub mod json;
mod kept_out;
mod sentences;
pub mod sheet;
pub mod verdict;

pub use kept_out::is_kept_out;

use entity_core::validation::entry::{self, Setting};
use entity_core::DefinitionError;
use model::table::Table;
use model::trees::{Schema, Sheet, Value};
use std::panic::{catch_unwind, AssertUnwindSafe};
use verdict::{Defect, Quoted, Verdict};

/// Kind, semantics, label and table of a call that no refusal answers.
#[derive(Clone, Copy)]
pub struct Frame<'a> {
    pub kind: u64,
    pub semantics: u64,
    pub label: &'a str,
    pub table: &'a [u8],
}

/// The schemas in the Rust's types, for many rules under one schema.
pub struct Schemas(convert::Schemas);

impl Schemas {
    pub fn new(schema: &Schema) -> Self {
        Self(convert::schemas(schema))
    }
}

/// Asks the Rust. An error is a finding: a panic, or a message that no sentence of the table matches.
pub fn ask(frame: Frame<'_>, schemas: &Schemas, sheet: &Sheet) -> Result<Verdict, String> {
    let setting = Setting {
        kind: frame.kind,
        semantics: frame.semantics,
        fields: &schemas.0.fields,
        args: schemas.0.args.as_ref(),
        label: frame.label,
        table: table(frame.table),
    };
    let answer = catch_unwind(AssertUnwindSafe(|| call(sheet, &setting)));
    match answer {
        Err(_) => Err("the Rust panics".to_owned()),
        Ok(Ok(())) => Ok(Verdict::Accepted),
        Ok(Err(error)) => read_error(error, frame, sheet).map(Verdict::Defect),
    }
}

/// Asks the Rust for one path of the record, without `$fields.`: the detail of 18, or 0. An error is a finding, as for `ask`.
pub fn ask_key(schemas: &Schemas, semantics: u64, reader: u64, path: &str) -> Result<u32, String> {
    match catch_unwind(AssertUnwindSafe(|| entry::key(&schemas.0.fields, path, reader, semantics))) {
        Err(_) => Err("the Rust panics".to_owned()),
        Ok(Ok(())) => Ok(0),
        Ok(Err(message)) => sentences::of_key(path, &message),
    }
}

/// The marks that take the place of the Rust's name test; none for the stock table, under which the Rust is asked as it is.
fn table(lent: &[u8]) -> Option<entry::Table> {
    let is_stock = lent.is_empty() || lent.starts_with(&Table::stock().write());
    let mark = |row: usize, mark: usize| lent.get(row * 22 + 4 + 2 * mark) == Some(&b'1');
    (!is_stock).then(|| [0, 1, 2, 3, 4, 5, 6, 7].map(|row| [0, 1, 2, 3, 4, 5, 6, 7, 8].map(|name| mark(row, name))))
}

/// A value as the Rust prints it: compact JSON.
pub fn json(value: &Value) -> String {
    convert::value(value).to_string()
}

fn call(sheet: &Sheet, setting: &Setting<'_>) -> Result<(), DefinitionError> {
    match sheet {
        Sheet::Rule(rule) => entry::rule(&convert::rule(rule), setting),
        Sheet::Template(value) => entry::template(&convert::value(value), setting),
    }
}

/// Family from the variant; number and detail from the message, or from the variant where it has none.
fn read_error(error: DefinitionError, frame: Frame<'_>, sheet: &Sheet) -> Result<Defect, String> {
    let table = sentences::Table::new(frame.kind, sheet);
    let message = message(&error).ok_or_else(|| format!("the Rust answers with a variant that has no family: {error:?}"))?;
    let plain = |number, family, detail, path, quoted| Defect { number, family, detail, path, message, quoted, over: None };
    Ok(match error {
        DefinitionError::InvalidRule { path, message } => {
            let found = table.of_rule(&message)?;
            plain(found.number, 1, found.detail, path, found.quoted)
        }
        DefinitionError::InvalidTemplate { path, message } => {
            let found = table.of_reference(&message)?;
            plain(found.number, 2, found.detail, path, found.quoted)
        }
        DefinitionError::SemanticsKeyNotAvailable { path, key } => plain(15, 3, 0, path, Quoted::Operator(key)),
        DefinitionError::ConditionTooDeep { path, depth, limit: 32 } => plain(13, 4, 0, path, Quoted::Depth(depth)),
        DefinitionError::CompareOperandNotAddressable { path, side } => plain(17, 5, side_of(side)?, path, Quoted::Side),
        DefinitionError::QuantifierBindInvalid { path, bind } => plain(21, 6, 0, path, Quoted::Bind(bind)),
        DefinitionError::QuantifierOverNotCollection { path, over, detail } => {
            let detail = sentences::of_collection(&over, &detail)?;
            plain(22, 7, detail, path, Quoted::Over(over))
        }
        DefinitionError::QuantifierBodyScope { path, expression, detail } => {
            let found = table.of_rule(&detail)?;
            Defect { over: Some(expression), ..plain(found.number, 8, found.detail, path, found.quoted) }
        }
        other => return Err(format!("the Rust answers with a variant that has no family: {other:?}")),
    })
}

/// What each variant carries as its message; none of one that has no family.
fn message(error: &DefinitionError) -> Option<String> {
    Some(match error {
        DefinitionError::InvalidRule { message, .. } | DefinitionError::InvalidTemplate { message, .. } => message.clone(),
        DefinitionError::SemanticsKeyNotAvailable { key, .. } => key.clone(),
        DefinitionError::ConditionTooDeep { depth, .. } => depth.to_string(),
        DefinitionError::CompareOperandNotAddressable { side, .. } => (*side).to_owned(),
        DefinitionError::QuantifierBindInvalid { bind, .. } => bind.clone(),
        DefinitionError::QuantifierOverNotCollection { detail, .. } | DefinitionError::QuantifierBodyScope { detail, .. } => detail.clone(),
        _ => return None,
    })
}

fn side_of(side: &str) -> Result<u32, String> {
    match side {
        "left" => Ok(1),
        "right" => Ok(2),
        _ => Err(format!("the Rust names a side of compare that there is not: {side}")),
    }
}
