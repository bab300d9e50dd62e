//! `open`: rules, and the objects of the schema that must be opened for them.

use super::{Told, print_each, rules};
use crate::arguments::{self, Arguments};
use crate::checked::{Checked, Outcome, Question, Shared};
use crate::json::{outcome_members, subject_member};
use crate::members::{Member, Tree};
use crate::object::Object;
use crate::printed::{name, visible};
use crate::report::{self, Colour, Palette};
use crate::subject::Subject;
use crate::{REFUSED, complain};
use entity_rules::limits::MAX_SCHEMA_ENTRIES;
use entity_rules::opened;
use std::io::{self, IsTerminal, Write};
use std::path::Path;

/// Finds what must be opened for every rule, and prints that or the schema with all of it open.
pub fn run(asked: &arguments::Opening, out: &mut impl Write) -> io::Result<u8> {
    let arguments = &asked.check;
    let rules = match rules("open", &arguments.asked) {
        Ok(rules) => rules,
        Err(status) => return Ok(status),
    };
    let shared = Shared::of(arguments);
    let questions = arguments.asked.questions(&rules).into_iter();
    let all = questions.map(|question| Opened::new(arguments, &shared, question));
    match asked.write {
        true => write_opened(arguments, &shared, all, out),
        false => print_openings(arguments, all, out),
    }
}

/// Prints what must be opened for every rule.
fn print_openings<'a>(
    arguments: &Arguments,
    all: impl ExactSizeIterator<Item = Opened<'a>>,
    out: &mut impl Write,
) -> io::Result<u8> {
    let output = arguments.output;
    let total = all.len();
    let palette = Palette::new(io::stdout().is_terminal());
    let mut remedies = Remedies::default();
    print_each(all, arguments.asked.noun(), out, |opened| {
        remedies.count(&opened);
        let is_shown = !(output.quiet && opened.is_accepted());
        let is_last = !output.json && opened.blames_what_is_shared();
        Told {
            text: is_shown.then(|| match output.json {
                true => opened.line(),
                false => opened.text(&palette, &arguments.schema),
            }),
            is_last,
        }
    })?;
    if !output.json && total > 1 && !(output.quiet && remedies.is_plain()) {
        writeln!(out, "{}", remedies.summary(total))?;
    }
    out.flush()?;
    Ok(remedies.status())
}

/// Prints the schema with everything opened that the rules need, unless one of them cannot be checked. Which these are, and those that no opening helps, is said on standard error.
fn write_opened<'a>(
    arguments: &Arguments,
    shared: &Shared,
    all: impl Iterator<Item = Opened<'a>>,
    out: &mut impl Write,
) -> io::Result<u8> {
    let (mut marks, mut remedies) = (Vec::new(), Remedies::default());
    for opened in all {
        let is_last = opened.blames_what_is_shared();
        remedies.count(&opened);
        match &opened.remedy {
            Remedy::Open(openings) => marks.extend(openings.iter().map(|one| one.mark)),
            Remedy::None(_) | Remedy::NotChecked(_) => {
                let text = opened.text(&Palette::new(false), &arguments.schema);
                complain(text.trim_end());
            }
        }
        if is_last {
            break;
        }
    }
    let status = remedies.status();
    match shared.schema().map(|schema| opened(schema, &marks)) {
        Ok(Ok(sheet)) if status < REFUSED => out.write_all(&sheet)?,
        _ => {
            return Ok(complain(
                "open: the schema is not written, since a rule cannot be checked",
            ));
        }
    }
    out.flush()?;
    Ok(status)
}

/// A rule and what opening objects makes of it.
pub struct Opened<'a> {
    pub subject: Subject<'a>,
    pub remedy: Remedy,
}

pub enum Remedy {
    /// Accepted with these open, and with no fewer; as it is, where there are none.
    Open(Vec<Opening>),
    /// What comes of it with everything open: no opening helps.
    None(Outcome),
    /// Refused or not read.
    NotChecked(Outcome),
}

/// The record, the arguments or an object, whose mark must go from 0 to 1.
pub struct Opening {
    /// 0 for the mark of the arguments, 1 for that of the record, else the entry.
    pub mark: u32,
    member: Option<Member>,
    /// What comes of the rule if only the others are open.
    need: Outcome,
}

impl<'a> Opened<'a> {
    pub fn new(arguments: &Arguments, shared: &Shared, question: Question<'a>) -> Self {
        let under = |schema: &[u8], marks: &[u32]| {
            // A schema from which marks were read is well formed, so that it can be opened.
            let schema = opened(schema, marks).map_or(schema.to_vec(), Into::into);
            shared.outcome_under(arguments, &schema, question)
        };
        let remedy = match (shared.openings(arguments, question), shared.schema()) {
            (Some(Ok(Some(marks))), Ok(schema)) => {
                let openings = marks.iter().map(|&mark| {
                    let others = marks.iter().copied().filter(|other| *other != mark);
                    let need = under(schema, &others.collect::<Vec<u32>>());
                    Opening::new(schema, mark, need)
                });
                Remedy::Open(openings.collect())
            }
            (Some(Ok(None)), Ok(schema)) => {
                let all = (0..).take(MAX_SCHEMA_ENTRIES.saturating_add(1));
                Remedy::None(under(schema, &all.collect::<Vec<u32>>()))
            }
            _ => Remedy::NotChecked(Checked::new(arguments, shared, question).outcome),
        };
        Self {
            subject: question.subject(),
            remedy,
        }
    }

    /// Whether the schema or the table is at fault, so that every other rule would fare the same.
    pub fn blames_what_is_shared(&self) -> bool {
        matches!(&self.remedy, Remedy::NotChecked(outcome) if outcome.blames_what_is_shared())
    }

    /// Whether nothing has to be opened.
    pub fn is_accepted(&self) -> bool {
        matches!(&self.remedy, Remedy::Open(openings) if openings.is_empty())
    }

    /// What is printed for it, with the name of the schema.
    pub fn text(self, palette: &Palette, schema: &Path) -> String {
        let subject = self.subject;
        let told = |outcome| report::text(palette, &Checked { subject, outcome });
        let subject = report::subject(subject);
        match self.remedy {
            Remedy::Open(openings) if openings.is_empty() => {
                let word = palette.paint(Colour::Green, "accepted");
                format!("{subject}: {word}, nothing to open\n")
            }
            Remedy::Open(openings) => {
                let word = palette.paint(Colour::Yellow, &condition(openings.len()));
                let rows: String = openings.iter().map(|one| one.text(schema)).collect();
                format!("{subject}: {word}\n{rows}")
            }
            Remedy::None(outcome) => {
                let word = palette.paint(Colour::Red, "no opening helps");
                let text = told(outcome);
                let lines = text.lines().map(|line| format!("    {line}\n"));
                let lines: String = lines.collect();
                format!("{subject}: {word}\n  with everything open\n{lines}")
            }
            Remedy::NotChecked(outcome) => told(outcome),
        }
    }

    /// Its line of JSON.
    pub fn line(&self) -> String {
        let mut object = Object::new();
        subject_member(&mut object, self.subject);
        match &self.remedy {
            Remedy::Open(openings) => {
                object.text("verdict", "openings");
                object.number("number", 0);
                object.list("openings", openings.iter().map(Opening::object));
            }
            Remedy::None(outcome) => {
                object.text("verdict", "none");
                object.number("number", 0);
                object.object("remains", &members(outcome));
            }
            Remedy::NotChecked(outcome) => outcome_members(&mut object, outcome),
        }
        object.line()
    }
}

/// On which condition a rule is accepted.
fn condition(count: usize) -> String {
    match count {
        1 => "accepted if 1 object is opened".to_owned(),
        count => format!("accepted if {count} objects are opened"),
    }
}

fn members(outcome: &Outcome) -> Object {
    let mut object = Object::new();
    outcome_members(&mut object, outcome);
    object
}

impl Opening {
    fn new(schema: &[u8], mark: u32, need: Outcome) -> Self {
        let tree = Tree::new(schema);
        let member = tree.as_ref().and_then(|tree| match mark {
            0 => tree.arguments(),
            1 => Some(tree.record()),
            entry => tree.field(entry),
        });
        Self {
            mark,
            member: member.cloned(),
            need,
        }
    }

    /// The object, and the entry of the rule that cannot be read without it.
    fn text(&self, schema: &Path) -> String {
        let file = name(schema.as_os_str());
        let mut rows = Vec::new();
        if let Some(member) = &self.member {
            let Member { line, place, .. } = member;
            let [path, text] = [&member.path, &member.text].map(|text| visible(text));
            rows.push((
                "open",
                format!("{file}:{line}: entry {place}, {path}: {text}"),
            ));
        }
        if let Outcome::Defect {
            at: Some(at),
            blame,
            ..
        } = &self.need
        {
            rows.extend(report::needed_rows(at, blame.as_deref()));
        }
        rows.iter()
            .map(|(name, value)| format!("  {name:<8}{value}\n"))
            .collect()
    }

    fn object(&self) -> Object {
        let mut object = Object::new();
        object.number("mark", self.mark);
        if let Some(member) = &self.member {
            object.number("place", member.place);
            object.number("line", member.line);
            object.text("path", &member.path);
            object.text("entry", &member.text);
        }
        object.object("need", &members(&self.need));
        object
    }
}

/// How many rules there were of each remedy.
#[derive(Default)]
pub struct Remedies {
    accepted: usize,
    opened: usize,
    none: usize,
    not_checked: usize,
}

impl Remedies {
    pub fn count(&mut self, opened: &Opened<'_>) {
        let counter = match &opened.remedy {
            Remedy::Open(_) if opened.is_accepted() => &mut self.accepted,
            Remedy::Open(_) => &mut self.opened,
            Remedy::None(_) => &mut self.none,
            Remedy::NotChecked(_) => &mut self.not_checked,
        };
        *counter = counter.saturating_add(1);
    }

    /// The exit status: 0 each is accepted or can be by opening, 1 no opening helps one of them, 2 one could not be checked.
    pub fn status(&self) -> u8 {
        match (self.none, self.not_checked) {
            (0, 0) => 0,
            (_, 0) => 1,
            _ => 2,
        }
    }

    /// Whether every rule is accepted as it is.
    pub fn is_plain(&self) -> bool {
        matches!((self.opened, self.status()), (0, 0))
    }

    /// One line for so many rules.
    pub fn summary(&self, total: usize) -> String {
        let Self {
            accepted,
            opened,
            none,
            ..
        } = self;
        let told = [accepted, opened, none]
            .into_iter()
            .fold(0, |sum: usize, count| sum.saturating_add(*count));
        let left = match total.saturating_sub(told) {
            0 => String::new(),
            left => format!(", {left} not checked"),
        };
        format!(
            "{total} rules: {accepted} accepted, {opened} accepted if objects are opened, {none} that no opening helps{left}"
        )
    }
}
