//! `tally` and `open` of a definition: its places counted by answer, and what to open for those that are not accepted.

use super::definition::{Found, Opened, no_definition};
use super::tally;
use super::whole_book::Counted;
use crate::REFUSED;
use crate::arguments::DefinitionRun;
use crate::checked::Outcome;
use crate::members::Tree;
use crate::object::Object;
use crate::printed::{name, visible};
use crate::report::{self, Counts, Palette};
use crate::subject::Subject;
use entity_rules::{Check, DefectNumber, Place, Tally};
use std::io::{self, IsTerminal, Write};

/// Tallies the places of a definition. One that is not checked is told of, and not counted.
pub fn tally(asked: &DefinitionRun, out: &mut impl Write) -> io::Result<u8> {
    with_places(asked, out, |opened, all| {
        let palette = Palette::new(io::stdout().is_terminal());
        let refused = all.iter().filter(|found| is_refused(found));
        let refused = refused
            .map(|found| report::outcome(&palette, Subject::File(opened.file), &found.outcome));
        let counted = Counted {
            tally: tallied(all),
            fault: None,
        };
        match asked.output.json {
            true => tally::line(Subject::File(opened.file), &counted),
            false => {
                let subject = report::subject(Subject::File(opened.file));
                refused.collect::<String>() + &tally::table(&palette, &subject, &counted)
            }
        }
    })
}

/// Finds what to open in the schemas of a definition.
pub fn open(asked: &DefinitionRun, out: &mut impl Write) -> io::Result<u8> {
    let mut helps = true;
    let status = with_places(asked, out, |opened, all| {
        let mut text = String::new();
        let faulty = all.iter().filter(|found| !found.outcome.is_accepted());
        for found in faulty {
            let marks = match is_refused(found) {
                true => None,
                false => opened.openings(found.place),
            };
            helps = helps && marks.is_some();
            text.push_str(&match asked.output.json {
                true => opening_line(found, marks.as_deref()),
                false => opening_text(opened, found, marks.as_deref()),
            });
        }
        text
    })?;
    Ok(match status {
        1 => u8::from(!helps),
        other => other,
    })
}

/// Checks every place, and prints what is told of them; the answer is the exit status of the worst.
fn with_places(
    asked: &DefinitionRun,
    out: &mut impl Write,
    tell: impl FnOnce(&Opened<'_>, &[Found<'_>]) -> String,
) -> io::Result<u8> {
    let opened = match Opened::read(&asked.file) {
        Ok(opened) => opened,
        Err(why) => {
            out.write_all(no_definition(&asked.file, asked.output, why).as_bytes())?;
            return Ok(REFUSED);
        }
    };
    let places = opened.definition.places().iter();
    let all: Vec<Found<'_>> = places.map(|place| opened.found(place)).collect();
    let mut counts = Counts::default();
    for found in &all {
        counts.count(&found.outcome);
    }
    let status = counts.status();
    if !(asked.output.quiet && status == 0) {
        out.write_all(tell(&opened, &all).as_bytes())?;
    }
    out.flush()?;
    Ok(status)
}

fn is_refused(found: &Found<'_>) -> bool {
    matches!(found.outcome, Outcome::Refused { .. })
}

fn tallied(all: &[Found<'_>]) -> Tally {
    let mut tally = Tally::default();
    let plus = |count: &mut u64, more: u64| *count = count.saturating_add(more);
    for found in all {
        let (passed, number) = match &found.outcome {
            Outcome::Accepted { passed } => (*passed, None),
            Outcome::Defect { defect, .. } => (defect.passed, Some(defect.number)),
            _ => continue,
        };
        plus(&mut tally.read, 1);
        plus(&mut tally.passed, passed.into());
        match number {
            None => plus(&mut tally.accepted, 1),
            Some(number) => {
                let mut counters = DefectNumber::ALL.iter().zip(&mut tally.found);
                if let Some((_, count)) = counters.find(|(one, _)| **one == number) {
                    plus(count, 1);
                }
            }
        }
    }
    tally
}

impl Opened<'_> {
    /// What to open for a place that has a defect, by its way in the schema; none where no opening helps.
    fn openings(&self, place: &Place) -> Option<Vec<String>> {
        let schema = self.definition.schema(&place.scope)?.ok()?;
        let sheet = place.sheet.as_ref().ok()?;
        let check = Check::new(place.kind, self.definition.semantics(), "");
        let marks = check.openings(schema, sheet).ok()??;
        let tree = Tree::new(schema)?;
        let way = |mark: u32| match mark {
            0 => Some("$args".to_owned()),
            1 => Some("$fields".to_owned()),
            entry => Some(tree.field(entry)?.path.clone()),
        };
        let ways: Option<Vec<String>> = marks.into_iter().map(way).collect();
        // A key that is refused where a template would be accepted has nothing to open.
        ways.filter(|ways| !ways.is_empty())
    }
}

fn opening_text(opened: &Opened<'_>, found: &Found<'_>, marks: Option<&[String]>) -> String {
    let told = match marks {
        _ if is_refused(found) => "not checked".to_owned(),
        None => "no opening helps".to_owned(),
        Some(ways) => {
            let ways: Vec<String> = ways
                .iter()
                .map(|way| format!("`{}`", visible(way)))
                .collect();
            format!(
                "accepted once {} open",
                match ways.as_slice() {
                    [way] => format!("{way} is"),
                    ways => format!("{} are", ways.join(", ")),
                }
            )
        }
    };
    let file = name(opened.file.as_os_str());
    let (line, column) = (found.at.line, found.at.column);
    let label = visible(&found.place.label);
    format!("{file}:{line}:{column}: {label}: {told}\n")
}

fn opening_line(found: &Found<'_>, marks: Option<&[String]>) -> String {
    let mut object = Object::new();
    found.place_members(&mut object);
    object.truth("helps", marks.is_some());
    let ways: Vec<&str> = marks
        .unwrap_or_default()
        .iter()
        .map(String::as_str)
        .collect();
    object.texts("open", &ways);
    object.line()
}
