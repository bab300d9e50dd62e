//! `widens`: two schemas compared, with what a person wants to know about the answer.

mod json;
mod report;

use crate::arguments::{Output, Pair};
use crate::files::{Fault, Sheet, Unreadable, fault, read_sheet};
use crate::members::{Growth, Member, Tree, grown};
use crate::report::Palette;
use entity_rules::entries::read_schema;
use entity_rules::{Breach, BreachReason, FieldKind, Refusal, Widening, widens};
use std::io::{self, IsTerminal, Write};
use std::path::Path;

/// Compares two schemas, and prints what comes of it.
pub fn run(pair: &Pair, out: &mut impl Write) -> io::Result<u8> {
    let compared = Compared::new(&pair.old, &pair.new);
    show(&compared, pair.output, out)?;
    out.flush()?;
    Ok(compared.status())
}

/// Prints what came of two schemas.
pub fn show(compared: &Compared, output: Output, out: &mut impl Write) -> io::Result<()> {
    let palette = Palette::new(io::stdout().is_terminal());
    let is_hidden = output.quiet && matches!(compared.comparison, Comparison::Widening { .. });
    let text = match output.json {
        _ if is_hidden => String::new(),
        true => json::line(compared),
        false => report::text(&palette, compared),
    };
    out.write_all(text.as_bytes())
}

/// Two files and what came of them.
pub struct Compared<'a> {
    pub old: &'a Path,
    pub new: &'a Path,
    pub comparison: Comparison,
}

pub enum Comparison {
    Widening {
        /// Whether nothing differs but open marks.
        only_marks: bool,
        grown: Vec<Growth>,
    },
    Breach {
        breach: Breach,
        old: Option<Member>,
        new: Option<Member>,
        hint: Option<&'static str>,
    },
    Refused {
        refusal: Refusal,
        fault: Option<Fault>,
    },
    Unreadable(Unreadable),
}

impl<'a> Compared<'a> {
    /// Reads both files.
    pub fn new(old: &'a Path, new: &'a Path) -> Self {
        let sheets = (
            read_sheet(old, Sheet::Schema),
            read_sheet(new, Sheet::Schema),
        );
        match sheets {
            (Ok(one), Ok(two)) => Self::of((old, &one), (new, &two)),
            (Err(unreadable), _) | (_, Err(unreadable)) => Self::unreadable(old, new, unreadable),
        }
    }

    pub fn unreadable(old: &'a Path, new: &'a Path, unreadable: Unreadable) -> Self {
        let comparison = Comparison::Unreadable(unreadable);
        Self {
            old,
            new,
            comparison,
        }
    }

    /// Two files with what they hold.
    pub fn of((old, one): (&'a Path, &[u8]), (new, two): (&'a Path, &[u8])) -> Self {
        let comparison = match widens(one, two) {
            Ok(Widening::Breach(breach)) => located(breach, one, two),
            Ok(widening) => Comparison::Widening {
                only_marks: widening == Widening::Marks,
                grown: match (Tree::new(one), Tree::new(two)) {
                    (Some(one), Some(two)) => grown(&one, &two),
                    _ => Vec::new(),
                },
            },
            Err(refusal) => Comparison::Refused {
                refusal,
                fault: match refusal {
                    Refusal::SchemaSheet => fault(old, one, read_schema),
                    Refusal::NewSchemaSheet => fault(new, two, read_schema),
                    _ => None,
                },
            },
        };
        Self {
            old,
            new,
            comparison,
        }
    }

    /// The exit status: 0 a widening, 1 none, 2 otherwise.
    pub fn status(&self) -> u8 {
        match self.comparison {
            Comparison::Widening { .. } => 0,
            Comparison::Breach { .. } => 1,
            Comparison::Refused { .. } | Comparison::Unreadable(_) => 2,
        }
    }
}

/// A breach with the entries that it names.
fn located(breach: Breach, one: &[u8], two: &[u8]) -> Comparison {
    let (one, two) = (Tree::new(one), Tree::new(two));
    let is_arguments = match (&one, &two) {
        (Some(one), Some(two)) => !one.record_closes(two),
        _ => false,
    };
    let member = |tree: Option<&Tree>, entry: Option<u32>| match (tree?, entry?) {
        (tree, 1) if is_arguments => tree.arguments().cloned(),
        (tree, 1) => Some(tree.record().clone()),
        (tree, entry) => tree.field(entry).cloned(),
    };
    let (old, new) = (
        member(one.as_ref(), breach.old_entry),
        member(two.as_ref(), breach.new_entry),
    );
    Comparison::Breach {
        breach,
        hint: hint(breach.reason, new.as_ref()),
        old,
        new,
    }
}

/// Why it is not a widening, where it looks like one.
fn hint(reason: BreachReason, new: Option<&Member>) -> Option<&'static str> {
    let is_json = new.is_some_and(|new| new.kind == Some(FieldKind::Json));
    let has_element = new.is_some_and(|new| new.has_element);
    match reason {
        BreachReason::KindDiffers if is_json => {
            Some("a quantifier over the field would fail, now that it is json")
        }
        BreachReason::ItemsDiffer if has_element => Some(
            "paths through the elements were not checked before, and would now be checked against the element",
        ),
        BreachReason::FieldAdded => Some(
            "paths of that name were not checked before, and would now be checked against the field",
        ),
        _ => None,
    }
}
