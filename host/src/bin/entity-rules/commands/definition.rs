//! `definition`: every rule, condition, template and key of a definition.

use crate::REFUSED;
use crate::arguments::{DefinitionRun, Output};
use crate::blame::Readable;
use crate::checked::{Checked, Outcome, located};
use crate::files::{Fault, NoSheet, Rule, Sheet, read_sheet};
use crate::json::{fault_members, unreadable_members};
use crate::object::Object;
use crate::region::Position;
use crate::report::{self, Counts, Palette, faulty_text};
use crate::sarif::Log;
use crate::source::{Source, fault_in};
use crate::subject::Subject;
use entity_rules::{Defect, Definition, Form, Place, Reader, Refusal, Table, Verdict};
use std::io::{self, IsTerminal, Write};
use std::path::Path;
use std::rc::Rc;

/// What entity-runtime looks at when it registers a definition, and no single check covers.
const NOT_COVERED: [&str; 8] = [
    "the entity's name and version, the lifecycle, its states and transitions, `in_state`",
    "the schemas themselves: fields, defaults, arguments and responses",
    "scales, identity and relations",
    "whether `set` and `responds` write members that there are, and all that they must",
    "the choice between outcomes: their names, order, selectors and effects",
    "increments and clears, but for the reference of an increment's amount",
    "`set_if_present`, `responds_if_present` and `payload_if_present`",
    "`fulfills`",
];

/// The same for people.
const LEFT_OUT: &str = "Single checks do not cover the lifecycle, the schemas themselves,\n\
    identity, relations and scales, the choice of outcomes, increments and clears, members that are set or\n\
    left out, and fulfilment: that all is accepted does not mean that the definition registers.";

/// What is passed over under kernel/1, which refuses a definition that has it.
const NOT_OF_KERNEL: &str = "`create.outcomes`, which kernel/1 does not have";

/// What is not covered in this definition.
fn not_covered(definition: &Definition) -> Vec<&'static str> {
    let passed_over = (!definition.semantics().is_service()).then_some(NOT_OF_KERNEL);
    NOT_COVERED.into_iter().chain(passed_over).collect()
}

/// A definition that was read, and its file.
pub struct Opened<'a> {
    pub file: &'a Path,
    pub definition: Definition,
    text: Rc<[u8]>,
}

/// A place, and what came of it.
pub struct Found<'a> {
    pub place: &'a Place,
    /// Where the fault is, or else the place itself.
    pub at: Position,
    pub outcome: Outcome,
}

pub fn run(asked: &DefinitionRun, out: &mut impl Write) -> io::Result<u8> {
    let opened = match Opened::read(&asked.file) {
        Ok(opened) => opened,
        Err(why) => {
            out.write_all(no_definition(&asked.file, asked.output, why).as_bytes())?;
            return Ok(REFUSED);
        }
    };
    let places = opened.definition.places().iter();
    let all: Vec<Found<'_>> = places.map(|place| opened.found(place)).collect();
    let mut counts = Counts::default();
    for found in &all {
        counts.count(&found.outcome);
    }
    let status = counts.status();
    let text = match asked.output {
        Output { json: true, .. } => lines(&opened, &all),
        Output { sarif: true, .. } => sarif(&opened, all),
        Output { quiet, .. } => {
            let told = told(&opened, all);
            match quiet && status == 0 {
                true => String::new(),
                false => told,
            }
        }
    };
    out.write_all(text.as_bytes())?;
    out.flush()?;
    Ok(status)
}

impl<'a> Opened<'a> {
    pub fn read(file: &'a Path) -> Result<Self, NoSheet> {
        let text = read_sheet(file, Sheet::Definition)?;
        match Definition::read(&text) {
            Ok(definition) => Ok(Self {
                file,
                definition,
                text: text.into(),
            }),
            Err(error) => Err(NoSheet::Refused {
                refusal: Refusal::JsonForm,
                fault: Some(fault_in(file, &text, error.fault())),
            }),
        }
    }

    pub fn found<'p>(&self, place: &'p Place) -> Found<'p> {
        let outcome = match self.definition.check(place) {
            Ok(Verdict::Accepted { passed }) => Outcome::Accepted { passed },
            Ok(Verdict::Defect(defect)) => self.defect(place, defect),
            Err(fault) => {
                let fault = fault_in(self.file, &self.text, &fault);
                let told = format!("{} is not checked: {}", place.label, fault.told);
                Outcome::Refused {
                    refusal: Refusal::SheetLimit,
                    fault: Some(Fault { told, ..fault }),
                }
            }
        };
        let at = match &outcome {
            Outcome::Defect { at: Some(spot), .. } => spot.region.start,
            Outcome::Refused {
                fault: Some(fault), ..
            } => fault.at,
            _ => self.position(place),
        };
        Found { place, at, outcome }
    }

    /// Where a place begins.
    pub fn position(&self, place: &Place) -> Position {
        Position::new(&self.text, place.span.start)
    }

    /// A defect, with its place in the file, the part of a reference that is at fault, and a hint.
    fn defect(&self, place: &Place, defect: Defect) -> Outcome {
        let schema = match self.definition.schema(&place.scope) {
            Some(Ok(schema)) => &**schema,
            _ => &[],
        };
        let table = Table::stock();
        let readable = Readable {
            kind: place.kind,
            semantics: self.definition.semantics(),
            table: &table,
        };
        match &place.sheet {
            Ok(sheet) => {
                let source = Source::of_part(&self.text, sheet, &place.origins);
                located(defect, schema, Rule::of_json(self.file, &source), &readable)
            }
            Err(_) => Outcome::Defect {
                defect: Box::new(defect),
                at: None,
                over: None,
                blame: None,
                hint: None,
            },
        }
    }

    fn checked(&self, outcome: Outcome) -> Checked<'_> {
        Checked {
            subject: Subject::File(self.file),
            outcome,
        }
    }
}

/// What is printed where there is no definition.
pub fn no_definition(file: &Path, output: Output, why: NoSheet) -> String {
    if output.sarif {
        let mut log = Log::default();
        log.add(&Checked {
            subject: Subject::File(file),
            outcome: why.into(),
        });
        return log.text();
    }
    match why {
        NoSheet::Refused {
            fault: Some(fault), ..
        } if output.json => {
            let mut object = Object::new();
            object.text("verdict", "refused");
            object.text("explanation", &fault.told);
            fault_members(&mut object, &fault);
            object.line()
        }
        NoSheet::Unreadable(unreadable) if output.json => {
            let mut object = Object::new();
            unreadable_members(&mut object, &unreadable);
            object.line()
        }
        NoSheet::Refused {
            fault: Some(fault), ..
        } => {
            let palette = Palette::new(io::stdout().is_terminal());
            let subject = report::subject(Subject::File(file));
            let told = fault.told.clone();
            faulty_text(&palette, &subject, "not a definition", &told, Some(&fault))
        }
        why => {
            let palette = Palette::new(io::stdout().is_terminal());
            let checked = Checked {
                subject: Subject::File(file),
                outcome: why.into(),
            };
            report::text(&palette, &checked)
        }
    }
}

/// What a person reads: every place that is not accepted, and what was checked.
fn told(opened: &Opened<'_>, all: Vec<Found<'_>>) -> String {
    let palette = Palette::new(io::stdout().is_terminal());
    let summary = summary(opened, &all);
    let mut text = String::new();
    for found in all {
        if !found.outcome.is_accepted() {
            text.push_str(&report::text(&palette, &opened.checked(found.outcome)));
        }
    }
    text + &summary
}

/// What was checked, and what was not.
fn summary(opened: &Opened<'_>, all: &[Found<'_>]) -> String {
    let count = |is: &dyn Fn(&Found<'_>) -> bool| all.iter().filter(|found| is(found)).count();
    let forms: Vec<String> = Form::ALL
        .iter()
        .map(|form| (count(&|found| found.place.form == *form), form))
        .filter(|(count, _)| *count > 0)
        .map(|(count, form)| several(count, form.text()))
        .collect();
    let forms = match forms.is_empty() {
        true => "nothing to check".to_owned(),
        false => forms.join(", "),
    };
    let accepted = count(&|found| found.outcome.is_accepted());
    let defects = count(&|found| matches!(found.outcome, Outcome::Defect { .. }));
    let left = match all.len().saturating_sub(accepted).saturating_sub(defects) {
        0 => String::new(),
        left => format!(", {left} not checked"),
    };
    let file = crate::printed::name(opened.file.as_os_str());
    let (entity, version) = (opened.definition.entity(), opened.definition.version());
    let entity = crate::printed::visible(entity);
    let semantics = opened.definition.semantics();
    format!(
        "{file}: {entity}, version {version}, {semantics}: {forms}\n\
         {accepted} accepted, {defects} with a defect{left}. {LEFT_OUT}\n"
    )
}

/// So many of what the noun says.
pub fn several(count: usize, noun: &str) -> String {
    match count {
        1 => format!("1 {noun}"),
        count => format!("{count} {noun}s"),
    }
}

fn sarif(opened: &Opened<'_>, all: Vec<Found<'_>>) -> String {
    let mut log = Log::default();
    for found in all {
        log.add(&opened.checked(found.outcome));
    }
    log.text()
}

/// A line for each place, then one with what was not checked.
fn lines(opened: &Opened<'_>, all: &[Found<'_>]) -> String {
    let mut text: String = all.iter().map(|found| found.object().line()).collect();
    let is_left = |found: &&Found<'_>| matches!(found.outcome, Outcome::Refused { .. });
    let left = all.iter().filter(is_left).map(|found| {
        let mut object = Object::new();
        found.place_members(&mut object);
        object.text("reason", &found.reason());
        object
    });
    let mut last = Object::new();
    last.list("not_checked", left);
    last.texts("not_covered", &not_covered(&opened.definition));
    text.push_str(&last.line());
    text
}

impl Found<'_> {
    /// Its line of JSON, which always has the same members.
    pub fn object(&self) -> Object {
        let mut object = Object::new();
        self.place_members(&mut object);
        let kind = match self.place.form {
            Form::Key => Reader::Projection.text(),
            _ => self.place.kind.text(),
        };
        object.text("kind", kind);
        let (numbers, path, message, passed) = match &self.outcome {
            Outcome::Defect { defect, .. } => (
                [
                    defect.number.number(),
                    defect.family.number(),
                    defect.detail.number(),
                ],
                defect.path.clone(),
                defect.message.clone(),
                defect.passed,
            ),
            Outcome::Refused { refusal, .. } => {
                let numbers = [refusal.number(), 0, 0];
                (numbers, String::new(), self.reason(), 0)
            }
            Outcome::Accepted { passed } => ([0, 0, 0], String::new(), String::new(), *passed),
            _ => ([0, 0, 0], String::new(), String::new(), 0),
        };
        for (name, number) in ["number", "family", "detail"].into_iter().zip(numbers) {
            object.number(name, number);
        }
        object.text("path", &path);
        object.text("message", &message);
        object.number("passed", passed);
        object
    }

    pub fn place_members(&self, object: &mut Object) {
        object.text("label", &self.place.label);
        object.text("pointer", &self.place.pointer);
        object.number("line", self.at.line);
        object.number("column", self.at.column);
    }

    /// Why it is not checked.
    fn reason(&self) -> String {
        match &self.outcome {
            Outcome::Refused {
                fault: Some(fault), ..
            } => fault.told.clone(),
            _ => String::new(),
        }
    }
}
