//! `wall`: a rule book, printed for the wall.

use super::whole_book::{Counted, Read, nothing, read_book, refused};
use crate::arguments::BookRun;
use crate::checked::Checked;
use crate::complain;
use crate::files::NoSheet;
use crate::report::{self, Palette, refused_text};
use crate::subject::Subject;
use entity_rules::Refusal;
use std::io::{self, Write};

/// Prints a rule book for the wall. Nothing but its pages goes to standard output.
pub fn run(asked: &BookRun, out: &mut impl Write) -> io::Result<u8> {
    match Walled::new(asked) {
        Err(text) => Ok(complain(text.trim_end())),
        Ok(walled) => {
            if let Some(note) = &walled.note {
                complain(note.trim_end());
            }
            out.write_all(walled.pages.as_bytes())?;
            out.flush()?;
            Ok(walled.status)
        }
    }
}

/// A book, printed for the wall.
struct Walled {
    pages: String,
    status: u8,
    /// What else is to be said.
    note: Option<String>,
}

impl Walled {
    /// Reads what is asked for and prints it; an error is the text of what keeps it from that.
    fn new(asked: &BookRun) -> Result<Self, String> {
        let subject = Subject::File(&asked.book);
        let own = subject.label();
        let label = asked.label.as_deref().map_or(&*own, str::as_bytes);
        let walled = || {
            let read = Read::new(asked)?;
            let book = read_book(&asked.book)?;
            let check = read.check(asked.kind, label);
            let refused = |refusal| refused(&asked.book, &book, refusal);
            let tally = check.tally(&read.schema, &book).map_err(refused)?;
            let pages = check.wall(&read.schema, &book).map_err(refused)?;
            Ok((pages, read.counted(tally)))
        };
        let plain = Palette::new(false);
        let (pages, counted) = walled().map_err(|why: NoSheet| {
            let outcome = why.into();
            report::text(&plain, &Checked { subject, outcome })
        })?;
        let name = report::subject(subject);
        let note = match &counted {
            Counted { tally, .. } if tally.read == 0 => Some(nothing(&name)),
            Counted { fault, .. } => fault
                .as_ref()
                .map(|fault| refused_text(&plain, &name, Refusal::SchemaSheet, Some(fault))),
        };
        Ok(Self {
            pages,
            status: counted.status(),
            note,
        })
    }
}
