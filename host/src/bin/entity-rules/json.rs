//! Outcomes as JSON (RFC 8259), one object on one line.

use crate::blame::{Blame, Help};
use crate::checked::{Checked, Outcome, Spot};
use crate::constant::Always;
use crate::files::{Fault, FaultyPart, Unreadable};
use crate::hint::INSTANT;
use crate::object::Object;
use crate::region::Region;
use crate::report::{NO_INSTANT, explained, instant_fields, not_read, refused};
use crate::subject::Subject;
use entity_rules::{Defect, DefectNumber, PathVerdict, Refusal};

/// The line for one rule, path or text.
pub fn line(checked: &Checked) -> String {
    let mut object = Object::new();
    subject_member(&mut object, checked.subject);
    outcome_members(&mut object, &checked.outcome);
    object.line()
}

/// What an outcome is about.
pub fn subject_member(object: &mut Object, subject: Subject<'_>) {
    match subject {
        Subject::File(file) => object.given("file", file.as_os_str()),
        Subject::InBook { book, serial } => {
            object.given("file", book.as_os_str());
            object.number("sheet", serial);
        }
        Subject::Key(path) => object.given("key", path),
        Subject::Text(text) => object.given("text", text),
    }
}

/// What came of a rule, path or text.
pub fn outcome_members(object: &mut Object, outcome: &Outcome) {
    match outcome {
        Outcome::Accepted { passed } => {
            object.text("verdict", "accepted");
            object.number("number", 0);
            object.number("passed", *passed);
        }
        Outcome::Marked { passed, constants } => {
            object.text("verdict", "accepted");
            object.number("number", 0);
            object.number("passed", *passed);
            object.list("constants", constants.iter().map(Always::object));
        }
        Outcome::Defect {
            defect,
            at,
            over,
            blame,
            hint,
        } => {
            let spots = [at, over].map(Option::as_ref);
            defect_members(object, defect, spots, blame.as_deref());
            if let Some(hint) = hint {
                object.text("hint", hint);
            }
        }
        Outcome::KeyDefect { fault, blame, hint } => {
            let number = DefectNumber::Reference;
            object.text("verdict", "defect");
            object.number("number", number.number());
            object.text("word", number.word());
            let told = PathVerdict::Defect(*fault).to_string();
            object.text("explanation", &explained(told, blame.as_deref()));
            object.number("detail", fault.number());
            object.number("passed", 0);
            blame_members(object, blame.as_deref());
            if let Some(hint) = hint {
                object.text("hint", hint);
            }
        }
        Outcome::Instant(instant) => {
            object.text("verdict", "accepted");
            object.number("number", 0);
            for (name, number) in instant_fields(instant) {
                object.number(name, number);
            }
        }
        Outcome::NoInstant => {
            let number = DefectNumber::Instant;
            object.text("verdict", "defect");
            object.number("number", number.number());
            object.text("word", number.word());
            object.text("explanation", NO_INSTANT);
            object.text("hint", INSTANT);
        }
        Outcome::Refused { refusal, fault } => refused_members(object, *refusal, fault.as_ref()),
        Outcome::Unreadable(unreadable) => unreadable_members(object, unreadable),
    }
}

pub fn refused_members(object: &mut Object, refusal: Refusal, fault: Option<&Fault>) {
    object.text("verdict", "refused");
    object.number("number", refusal.number());
    object.text("word", refusal.word());
    object.text("explanation", &refused(refusal, fault));
    if let Some(fault) = fault {
        fault_members(object, fault);
    }
}

/// Where a file is at fault.
pub fn fault_members(object: &mut Object, fault: &Fault) {
    object.given("fault_file", fault.file.as_os_str());
    object.number("line", fault.at.line);
    match fault.part {
        FaultyPart::Place(place) => object.number("place", place),
        FaultyPart::Line(_) => object.number("column", fault.at.column),
    }
    object.number("byte", fault.byte);
}

pub fn unreadable_members(object: &mut Object, unreadable: &Unreadable) {
    object.text("verdict", "unreadable");
    object.text("explanation", &not_read(unreadable));
    object.given("fault_file", unreadable.file.as_os_str());
}

/// The part of a reference that is at fault.
fn blame_members(object: &mut Object, blame: Option<&Blame>) {
    let Some(blame) = blame else {
        return;
    };
    object.text("segment", &blame.part);
    object.number("segment_byte", blame.before.len());
    if let Some(Help::Meant(name)) = &blame.help {
        object.text("suggestion", name);
    }
}

fn defect_members(
    object: &mut Object,
    defect: &Defect,
    [at, over]: [Option<&Spot>; 2],
    blame: Option<&Blame>,
) {
    object.text("verdict", "defect");
    object.number("number", defect.number.number());
    object.text("word", defect.number.word());
    let explanation = explained(defect.explanation(), blame);
    object.text("explanation", &explanation);
    object.text("message", &defect.message);
    object.number("family", defect.family.number());
    object.text("family_name", defect.family.name());
    object.number("detail", defect.detail.number());
    object.number("place", defect.place);
    object.number("over_place", defect.over_place.unwrap_or(0));
    object.number("passed", defect.passed);
    object.text("path", &defect.path);
    if let Some(spot) = at {
        spot_members(object, spot);
        object.text("entry", &spot.text);
    }
    if let Some(spot) = over {
        object.text("over_entry", &spot.text);
    }
    blame_members(object, blame);
}

/// The line of an entry; in JSON from where to where.
fn spot_members(object: &mut Object, spot: &Spot) {
    if spot.shown.is_none() {
        object.number("line", spot.line);
        return;
    }
    let Region { start, end } = *spot.region;
    object.number("line", start.line);
    object.number("column", start.column);
    object.number("end_line", end.line);
    object.number("end_column", end.column);
}
