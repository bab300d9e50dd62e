//! `upgrade` of one definition by another: its schemas compared, its places paired.

use super::definition::{Found, Opened, no_definition, several};
use super::widens::{Compared, Comparison};
use crate::REFUSED;
use crate::arguments::Versions;
use crate::checked::Outcome;
use crate::object::Object;
use crate::printed::{name, visible};
use crate::region::Position;
use crate::report::{self, Colour, Palette};
use crate::subject::Subject;
use entity_rules::entries::{Content, read_rule};
use entity_rules::{Definition, Form, Place, Scope, finite};
use std::io::{self, IsTerminal, Write};

pub fn run(asked: &Versions, out: &mut impl Write) -> io::Result<u8> {
    let (old, new) = match (Opened::read(&asked.old), Opened::read(&asked.new)) {
        (Ok(old), Ok(new)) => (old, new),
        (old, new) => {
            let refused = [(&asked.old, old.err()), (&asked.new, new.err())];
            for (file, why) in refused {
                let text = why.map(|why| no_definition(file, asked.output, why));
                out.write_all(text.unwrap_or_default().as_bytes())?;
            }
            return Ok(REFUSED);
        }
    };
    let schemas = schemas(&old, &new);
    let pairs = pairs(old.definition.places(), new.definition.places());
    let fares = pairs.into_iter();
    let fares: Vec<Fare<'_>> = fares
        .map(|pair| Fare::new(&old, &new, &schemas, pair))
        .collect();
    let text = match asked.output.json {
        true => lines(&schemas, &fares),
        false => told(asked, [&old, &new], &schemas, &fares),
    };
    out.write_all(text.as_bytes())?;
    out.flush()?;
    Ok(status(asked, &fares))
}

/// Whether the schema of a scope is a widening of the one before it.
struct SchemaChange {
    scope: Scope,
    /// Why what was accepted need not stay so; none where it stays so by the theorem.
    breach: Option<String>,
}

/// The scopes that both versions have.
fn schemas(old: &Opened<'_>, new: &Opened<'_>) -> Vec<SchemaChange> {
    let operations = old.definition.operations();
    let operations = operations.map(|name| Scope::Operation(name.to_owned()));
    let scopes = [Scope::Record, Scope::Create].into_iter().chain(operations);
    scopes
        .filter_map(|scope| {
            let sheets = (
                old.definition.schema(&scope)?,
                new.definition.schema(&scope)?,
            );
            let breach = match sheets {
                (Ok(one), Ok(two)) => breach(&Compared::of((old.file, one), (new.file, two))),
                (Err(error), _) | (_, Err(error)) => Some(error.to_string()),
            };
            Some(SchemaChange { scope, breach })
        })
        .collect()
}

fn breach(compared: &Compared<'_>) -> Option<String> {
    match &compared.comparison {
        Comparison::Widening { .. } => None,
        Comparison::Breach {
            breach, old, new, ..
        } => {
            let member = old.as_ref().or(new.as_ref());
            let path = member.map(|member| format!(": `{}`", visible(&member.path)));
            Some(format!("{}{}", breach.reason, path.unwrap_or_default()))
        }
        Comparison::Refused { refusal, .. } => Some(refusal.to_string()),
        Comparison::Unreadable(_) => Some("the schema cannot be read".to_owned()),
    }
}

/// A place of one version, or of both.
#[derive(Clone, Copy)]
enum Pair<'a> {
    Both(&'a Place, &'a Place),
    New(&'a Place),
    Gone(&'a Place),
}

/// Places of the same form, kind and scope: those that have one sheet and one label, then one sheet, then one label. The new ones come in their order, then those that are gone.
fn pairs<'a>(old: &'a [Place], new: &'a [Place]) -> Vec<Pair<'a>> {
    let mut left: Vec<Option<&Place>> = old.iter().map(Some).collect();
    let mut pairs: Vec<Pair<'a>> = new.iter().map(Pair::New).collect();
    let is_group = |one: &Place, two: &Place| {
        (one.form, one.kind, &one.scope) == (two.form, two.kind, &two.scope)
    };
    let rounds: [fn(&Place, &Place) -> bool; 3] = [
        |one, two| one.sheet == two.sheet && one.label == two.label,
        |one, two| one.sheet == two.sheet,
        |one, two| one.label == two.label,
    ];
    for is_pair in rounds {
        for pair in &mut pairs {
            let Pair::New(new) = *pair else {
                continue;
            };
            let fits = |old: &&mut Option<&Place>| {
                old.is_some_and(|old| is_group(old, new) && is_pair(old, new))
            };
            let found = left.iter_mut().find(fits).and_then(Option::take);
            if let Some(old) = found {
                *pair = Pair::Both(old, new);
            }
        }
    }
    pairs.extend(left.into_iter().flatten().map(Pair::Gone));
    pairs
}

/// What happens to a place.
enum Fate {
    /// Accepted before, and so accepted now: by the theorem, without a check.
    Stays,
    /// Accepted before, and again.
    Still,
    /// The same defect.
    Same,
    /// Another defect.
    Other,
    Better,
    Worse,
    New,
    NewDefect,
    Gone,
    NotChecked,
}

struct Fare<'a> {
    fate: Fate,
    /// The place in the newer version that has it.
    label: &'a str,
    pointer: &'a str,
    at: Position,
    /// What came of it there, where it was checked.
    outcome: Option<Outcome>,
    /// Why the theorems do not say what comes of it.
    reason: Option<String>,
    /// Whether it is in both, and not as it was.
    has_changed: bool,
}

impl<'a> Fare<'a> {
    fn new(old: &Opened<'_>, new: &Opened<'_>, schemas: &[SchemaChange], pair: Pair<'a>) -> Self {
        match pair {
            Pair::Both(one, two) => Self::both(old, new, schemas, one, two),
            Pair::New(place) => {
                let found = new.found(place);
                let fate = match &found.outcome {
                    outcome if outcome.is_accepted() => Fate::New,
                    Outcome::Defect { .. } => Fate::NewDefect,
                    _ => Fate::NotChecked,
                };
                Self::of(fate, place, found, None)
            }
            Pair::Gone(place) => Self::of(Fate::Gone, place, old.found(place), None),
        }
    }

    fn of(fate: Fate, place: &'a Place, found: Found<'_>, reason: Option<String>) -> Self {
        Self {
            fate,
            label: &place.label,
            pointer: &place.pointer,
            at: found.at,
            outcome: Some(found.outcome),
            reason,
            has_changed: false,
        }
    }

    /// A place of both: checked anew where no theorem says what comes of it.
    fn both(
        old: &Opened<'_>,
        new: &Opened<'_>,
        schemas: &[SchemaChange],
        one: &'a Place,
        two: &'a Place,
    ) -> Self {
        let before = old.found(one).outcome;
        let reason = not_by_theorem([&old.definition, &new.definition], schemas, one, two);
        if before.is_accepted() && reason.is_none() {
            return Self {
                fate: Fate::Stays,
                label: &two.label,
                pointer: &two.pointer,
                at: new.position(two),
                outcome: None,
                reason: None,
                has_changed: false,
            };
        }
        let found = new.found(two);
        let fate = match (&before, &found.outcome) {
            (Outcome::Refused { .. }, _) | (_, Outcome::Refused { .. }) => Fate::NotChecked,
            (before, after) => match (before.is_accepted(), after.is_accepted()) {
                (true, true) => Fate::Still,
                (true, false) => Fate::Worse,
                (false, true) => Fate::Better,
                (false, false) if before.is_same(after) => Fate::Same,
                (false, false) => Fate::Other,
            },
        };
        let reason = reason.filter(|_| before.is_accepted());
        Self {
            has_changed: one.sheet != two.sheet,
            ..Self::of(fate, two, found, reason)
        }
    }
}

/// Why neither theorem says that what was accepted at a place stays so; none where one does.
fn not_by_theorem(
    [old, new]: [&Definition; 2],
    schemas: &[SchemaChange],
    one: &Place,
    two: &Place,
) -> Option<String> {
    if one.sheet != two.sheet {
        return Some(format!("the {} has changed", two.form));
    }
    let schema = schemas.iter().find(|schema| schema.scope == two.scope);
    if let Some(breach) = schema.and_then(|schema| schema.breach.as_ref()) {
        return Some(format!("the schema is not a widening: {breach}"));
    }
    let (from, to) = (old.semantics(), new.semantics());
    match (from == to, from.is_service(), to.is_service()) {
        (true, ..) => None,
        (_, false, true) if two.form == Form::Key => {
            Some("the semantics change, and no theorem about that covers keys".to_owned())
        }
        (_, false, true) if !are_finite(two) => {
            Some(format!("a number is not finite, and {to} asks for that"))
        }
        (_, false, true) => None,
        _ => Some(format!("the semantics change from {from} to {to}")),
    }
}

/// Whether every number of a place's sheet is finite.
fn are_finite(place: &Place) -> bool {
    let Ok(sheet) = &place.sheet else {
        return false;
    };
    let entries = read_rule(sheet).unwrap_or_default();
    let mut numbers = entries.iter().filter_map(|entry| match entry.content {
        Content::Number(text) => Some(text),
        _ => None,
    });
    numbers.all(|number| finite(number).is_finite)
}

/// 0 where nothing has changed for the rules that stay, and what is new is accepted; 1 where something has, or is worse if only that counts; 2 where one is not checked.
fn status(asked: &Versions, fares: &[Fare<'_>]) -> u8 {
    let has = |is: fn(&Fate) -> bool| fares.iter().any(|fare| is(&fare.fate));
    let is_worse = has(|fate| matches!(fate, Fate::Worse | Fate::NewDefect));
    let is_other = has(|fate| matches!(fate, Fate::Better | Fate::Other));
    match has(|fate| matches!(fate, Fate::NotChecked)) {
        true => REFUSED,
        false => u8::from(is_worse || (is_other && !asked.fail_on_worse)),
    }
}

impl Fate {
    const fn word(&self) -> &'static str {
        match self {
            Self::Stays => "stays",
            Self::Still => "still",
            Self::Same => "same",
            Self::Other => "other",
            Self::Better => "better",
            Self::Worse => "worse",
            Self::New => "new",
            Self::NewDefect => "new_defect",
            Self::Gone => "gone",
            Self::NotChecked => "not_checked",
        }
    }

    const fn text(&self) -> &'static str {
        match self {
            Self::Stays => "stays accepted by the theorem, not checked again",
            Self::Still => "still accepted, checked again",
            Self::Same => "a defect as before",
            Self::Other => "another defect than before",
            Self::Better => "better: accepted, and was not",
            Self::Worse => "worse: a defect, and was accepted",
            Self::New => "new, accepted",
            Self::NewDefect => "new, with a defect",
            Self::Gone => "gone",
            Self::NotChecked => "not checked",
        }
    }

    const fn colour(&self) -> Colour {
        match self {
            Self::Worse | Self::NewDefect | Self::Other => Colour::Red,
            Self::NotChecked | Self::Same => Colour::Yellow,
            _ => Colour::Green,
        }
    }
}

/// A line for each schema and each place.
fn lines(schemas: &[SchemaChange], fares: &[Fare<'_>]) -> String {
    let schemas = schemas.iter().map(|schema| {
        let mut object = Object::new();
        object.text("schema", &schema.scope.to_string());
        object.truth("widens", schema.breach.is_none());
        object.text("reason", schema.breach.as_deref().unwrap_or_default());
        object.line()
    });
    let places = fares.iter().map(|fare| {
        let mut object = Object::new();
        object.text("label", fare.label);
        object.text("pointer", fare.pointer);
        object.number("line", fare.at.line);
        object.number("column", fare.at.column);
        object.text("change", fare.fate.word());
        object.text("reason", fare.reason.as_deref().unwrap_or_default());
        object.line()
    });
    schemas.chain(places).collect()
}

/// What a person reads.
fn told(
    asked: &Versions,
    [old, new]: [&Opened<'_>; 2],
    schemas: &[SchemaChange],
    fares: &[Fare<'_>],
) -> String {
    let palette = Palette::new(io::stdout().is_terminal());
    if asked.output.quiet && status(asked, fares) == 0 {
        return String::new();
    }
    let mut text = String::new();
    for schema in schemas {
        if let Some(breach) = &schema.breach {
            let word = palette.paint(Colour::Yellow, "not a widening");
            let scope = visible(&schema.scope.to_string());
            let file = name(new.file.as_os_str());
            text.push_str(&format!("{file}: {word}: {scope}: {breach}\n"));
        }
    }
    let is_told = |fare: &&Fare<'_>| match fare.fate {
        Fate::Stays => false,
        Fate::Still => fare.has_changed,
        _ => true,
    };
    for fare in fares.iter().filter(is_told) {
        let file = match fare.fate {
            Fate::Gone => old.file,
            _ => new.file,
        };
        text.push_str(&paragraph(&palette, &name(file.as_os_str()), fare, new));
    }
    text + &summary([old, new], schemas, fares)
}

fn paragraph(palette: &Palette, file: &str, fare: &Fare<'_>, new: &Opened<'_>) -> String {
    let Position { line, column } = fare.at;
    let word = palette.paint(fare.fate.colour(), fare.fate.text());
    let label = visible(fare.label);
    let reason = fare.reason.as_ref().map(|reason| format!(" ({reason})"));
    let reason = reason.unwrap_or_default();
    let head = format!("{file}:{line}:{column}: {label}: {word}{reason}\n");
    let is_shown = matches!(
        fare.fate,
        Fate::Worse | Fate::NewDefect | Fate::Other | Fate::NotChecked
    );
    match &fare.outcome {
        Some(outcome) if is_shown => {
            let text = report::outcome(palette, Subject::File(new.file), outcome);
            let lines = text.lines().map(|line| format!("  {line}\n"));
            head + &lines.collect::<String>()
        }
        _ => head,
    }
}

/// How many of each, and what the theorem saved.
fn summary([old, new]: [&Opened<'_>; 2], schemas: &[SchemaChange], fares: &[Fare<'_>]) -> String {
    let count = |is: fn(&Fate) -> bool| fares.iter().filter(|fare| is(&fare.fate)).count();
    let (wide, all) = (
        schemas
            .iter()
            .filter(|schema| schema.breach.is_none())
            .count(),
        schemas.len(),
    );
    let stay = count(|fate| matches!(fate, Fate::Stays));
    let others = [
        ("still accepted", count(|fate| matches!(fate, Fate::Still))),
        ("better", count(|fate| matches!(fate, Fate::Better))),
        ("worse", count(|fate| matches!(fate, Fate::Worse))),
        (
            "with a defect as before",
            count(|fate| matches!(fate, Fate::Same)),
        ),
        (
            "with another defect",
            count(|fate| matches!(fate, Fate::Other)),
        ),
        ("new", count(|fate| matches!(fate, Fate::New))),
        (
            "new with a defect",
            count(|fate| matches!(fate, Fate::NewDefect)),
        ),
        ("gone", count(|fate| matches!(fate, Fate::Gone))),
        (
            "not checked",
            count(|fate| matches!(fate, Fate::NotChecked)),
        ),
    ];
    let others: String = others
        .iter()
        .filter(|(_, count)| *count > 0)
        .map(|(what, count)| format!(", {count} {what}"))
        .collect();
    let version = |opened: &Opened<'_>| {
        let Opened { definition, .. } = opened;
        format!(
            "version {}, {}",
            definition.version(),
            definition.semantics()
        )
    };
    let (from, to) = (version(old), version(new));
    let entity = visible(new.definition.entity());
    let places = several(stay, "place");
    let verb = if stay == 1 { "stays" } else { "stay" };
    format!(
        "{entity}: from {from} to {to}: {wide} of {all} schemas are widenings\n\
         {places} {verb} accepted by the theorem and {} not checked again{others}\n",
        if stay == 1 { "is" } else { "are" }
    )
}
