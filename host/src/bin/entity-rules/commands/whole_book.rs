//! What `tally` and `wall` share: a rule book, what is named with it, and its counts.

use crate::arguments::BookRun;
use crate::checked::Shared;
use crate::files::{Fault, NoSheet, Sheet, fault, read_sheet};
use entity_rules::entries::read_schema;
use entity_rules::{Book, Check, Kind, Refusal, Tally};
use std::path::Path;

/// How the sheets of a book fare.
pub struct Counted {
    pub tally: Tally,
    /// Where the schema stops being one, if the sheets are refused for that.
    pub fault: Option<Fault>,
}

impl Counted {
    /// The exit status: that of the worst sheet.
    pub fn status(&self) -> u8 {
        match (self.tally.defects(), self.tally.refused()) {
            (0, 0) => 0,
            (_, 0) => 1,
            _ => 2,
        }
    }
}

/// What a command about a book names besides the book.
pub struct Read<'a> {
    asked: &'a BookRun,
    /// The name table as it is lent.
    table: Vec<u8>,
    pub schema: Vec<u8>,
}

impl<'a> Read<'a> {
    pub fn new(asked: &'a BookRun) -> Result<Self, NoSheet> {
        let shared = Shared::new(&asked.schema, asked.table.as_deref());
        let (names, schema) = shared.ready()?;
        Ok(Self {
            asked,
            table: names.lent.clone(),
            schema: schema.to_vec(),
        })
    }

    pub fn check<'b>(&'b self, kind: Kind, label: &'b [u8]) -> Check<'b> {
        Check::new(kind, self.asked.semantics, label).table(&self.table)
    }

    /// A tally, with the schema's fault if sheets are refused for that.
    pub fn counted(&self, tally: Tally) -> Counted {
        let fault = match tally.schema_refused {
            0 => None,
            _ => fault(&self.asked.schema, &self.schema, read_schema),
        };
        Counted { tally, fault }
    }
}

pub fn read_book(file: &Path) -> Result<Vec<u8>, NoSheet> {
    Ok(read_sheet(file, Sheet::Book)?)
}

/// A refusal of a book, with its fault if it is that one.
pub fn refused(file: &Path, book: &[u8], refusal: Refusal) -> NoSheet {
    let fault = match (refusal, Book::read(book)) {
        (Refusal::BookForm, Err(error)) => Some(Fault::of_book(file, book, &error)),
        _ => None,
    };
    NoSheet::Refused { refusal, fault }
}

/// What is said of a book without sheets.
pub fn nothing(subject: &str) -> String {
    format!("{subject}: no sheets, nothing to check\n")
}
