//! In what a widened schema differs from the first one, and how often rules fared how under each such change.

use model::trees::{Field, Schema};
use std::collections::{BTreeMap, BTreeSet};
use std::fmt;

/// The place of a holder.
#[derive(Clone, Copy, Debug, PartialEq, Eq, PartialOrd, Ord)]
pub enum Place {
    Record,
    Arguments,
    Field,
    Element,
}

/// One kind of change from a schema to its widening.
#[derive(Clone, Copy, Debug, PartialEq, Eq, PartialOrd, Ord)]
pub enum Change {
    /// Nothing but open marks differs; every such pair also counts under the marks that it opens.
    MarksAlone,
    Opened(Place),
    Grown(Place),
    ArgumentsAppear,
}

/// The kinds of change from the first schema to the second, which is a widening of it; none where they are equal.
pub fn changes(first: &Schema, second: &Schema) -> BTreeSet<Change> {
    let mut found = BTreeSet::new();
    let (one, two) = (&first.record, &second.record);
    holders(Place::Record, (one.open, &one.fields), (two.open, &two.fields), &mut found);
    match (&first.arguments, &second.arguments) {
        (Some(one), Some(two)) => holders(Place::Arguments, (one.open, &one.fields), (two.open, &two.fields), &mut found),
        (None, Some(_)) => drop(found.insert(Change::ArgumentsAppear)),
        _ => {}
    }
    if !found.is_empty() && found.iter().all(|change| matches!(change, Change::Opened(_))) {
        found.insert(Change::MarksAlone);
    }
    found
}

type Held<'t> = (bool, &'t [Field]);

fn holders(place: Place, first: Held, second: Held, found: &mut BTreeSet<Change>) {
    if !first.0 && second.0 {
        found.insert(Change::Opened(place));
    }
    if first.1.len() < second.1.len() {
        found.insert(Change::Grown(place));
    }
    for field in first.1 {
        let other = second.1.iter().find(|other| other.name == field.name);
        fields(Place::Field, field, other.expect("a widening keeps every field"), found);
    }
}

fn fields(place: Place, first: &Field, second: &Field, found: &mut BTreeSet<Change>) {
    holders(place, (first.open, &first.properties), (second.open, &second.properties), found);
    if let (Some(one), Some(two)) = (&first.items, &second.items) {
        fields(Place::Element, one, two, found);
    }
}

/// How the second answer compares with the first.
#[derive(Clone, Copy, Debug, PartialEq, Eq, PartialOrd, Ord)]
pub enum Fared {
    AcceptedAgain,
    DefectThenAccepted,
    DefectThenLater,
    SameDefect,
    OtherDetail,
}

pub const FARED: [Fared; 5] =
    [Fared::AcceptedAgain, Fared::DefectThenAccepted, Fared::DefectThenLater, Fared::SameDefect, Fared::OtherDetail];

/// How often rules fared how: in all, and under each kind of change. A pair counts under every change that it has.
#[derive(Default)]
pub struct Table {
    all: BTreeMap<Fared, u64>,
    by_change: BTreeMap<Change, BTreeMap<Fared, u64>>,
}

impl Table {
    pub fn count(&mut self, changes: &BTreeSet<Change>, fared: Fared) {
        *self.all.entry(fared).or_default() += 1;
        for change in changes {
            *self.by_change.entry(*change).or_default().entry(fared).or_default() += 1;
        }
    }
}

impl fmt::Display for Table {
    fn fmt(&self, out: &mut fmt::Formatter<'_>) -> fmt::Result {
        writeln!(out, "{:24} {:>10} {:>10} {:>10} {:>10} {:>10}", "first", "accepted", "defect", "defect", "defect", "defect")?;
        writeln!(out, "{:24} {:>10} {:>10} {:>10} {:>10} {:>10}", "second", "accepted", "accepted", "later", "the same", "new detail")?;
        let rows = self.by_change.iter().map(|(change, row)| (format!("{change:?}"), row));
        for (name, row) in [("every pair".to_owned(), &self.all)].into_iter().chain(rows) {
            let counts = FARED.map(|fared| format!("{:>10}", row.get(&fared).copied().unwrap_or(0)));
            writeln!(out, "{name:24} {}", counts.join(" "))?;
        }
        Ok(())
    }
}
