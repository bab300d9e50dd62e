//! `upgrade`: rules, when a new schema takes the place of the one that they were checked against.

use super::widens::{self, Compared, Comparison};
use super::{Told, print_each, rules};
use crate::REFUSED;
use crate::arguments::{Arguments, Upgrade};
use crate::checked::{Checked, Outcome, Question, Shared};
use crate::files::{Sheet, read_sheet};
use crate::json::{outcome_members, subject_member};
use crate::object::Object;
use crate::printed::name;
use crate::report::{self, Colour, Palette, accepted};
use crate::subject::Subject;
use std::io::{self, IsTerminal, Write};
use std::path::Path;

/// Compares two schemas, then checks every rule for which the comparison does not already give the answer.
pub fn run(asked: &Upgrade, out: &mut impl Write) -> io::Result<u8> {
    let (arguments, files) = (&asked.check, [&*asked.check.schema, &*asked.new]);
    let [old_file, new_file] = files;
    let rules = match rules("upgrade", &arguments.asked) {
        Ok(rules) => rules,
        Err(status) => return Ok(status),
    };
    let shared = Shared::of(arguments);
    let new = read_sheet(new_file, Sheet::Schema);
    let compared = match (shared.schema(), &new) {
        (Ok(old), Ok(new)) => Compared::of((old_file, old), (new_file, new)),
        (Err(unreadable), _) | (_, Err(unreadable)) => {
            Compared::unreadable(old_file, new_file, unreadable.clone())
        }
    };
    widens::show(&compared, arguments.output, out)?;
    let is_widening = matches!(compared.comparison, Comparison::Widening { .. });
    match new {
        Ok(new) if compared.status() < REFUSED => {
            let questions = arguments.asked.questions(&rules);
            let fares = |question| Upgraded::new(arguments, &shared, &new, is_widening, question);
            upgrade_rules(arguments, questions.into_iter().map(fares), files, out)
        }
        _ => Ok(REFUSED),
    }
}

/// Prints how every rule fares.
fn upgrade_rules<'a>(
    arguments: &Arguments,
    all: impl ExactSizeIterator<Item = Upgraded<'a>>,
    files: [&Path; 2],
    out: &mut impl Write,
) -> io::Result<u8> {
    let output = arguments.output;
    let total = all.len();
    let palette = Palette::new(io::stdout().is_terminal());
    let mut fates = Fates::default();
    print_each(all, arguments.asked.noun(), out, |upgraded| {
        fates.count(&upgraded.fate);
        let is_shown = !(output.quiet && upgraded.is_as_before());
        let is_last = !output.json && upgraded.blames_what_is_shared();
        Told {
            text: is_shown.then(|| match output.json {
                true => upgraded.line(),
                false => upgraded.text(&palette, files),
            }),
            is_last,
        }
    })?;
    let status = fates.status();
    if !output.json && total > 1 && !(output.quiet && status == 0) {
        writeln!(out, "{}", fates.summary(total))?;
    }
    out.flush()?;
    Ok(status)
}

/// A rule and how it fares.
pub struct Upgraded<'a> {
    pub subject: Subject<'a>,
    pub fate: Fate,
}

pub enum Fate {
    /// Accepted before, and so accepted under a widening: by the theorem, without a second check.
    Stays { passed: u32 },
    /// The same answer under both.
    Same(Outcome),
    /// Another answer under the new schema.
    Changed { old: Outcome, new: Outcome },
    /// Refused or not read, under either of them.
    NotChecked(Outcome),
}

impl<'a> Upgraded<'a> {
    /// Checks a rule, under the new schema only where the theorem does not say what comes of it.
    pub fn new(
        arguments: &Arguments,
        shared: &Shared,
        new: &[u8],
        is_widening: bool,
        question: Question<'a>,
    ) -> Self {
        let is_wanted = |outcome: &Outcome| match outcome {
            Outcome::Accepted { .. } => !is_widening,
            Outcome::Defect { .. } => true,
            _ => false,
        };
        let fate = match shared.outcomes(arguments, new, question, is_wanted) {
            (Outcome::Accepted { passed }, None) => Fate::Stays { passed },
            (old, None) => Fate::NotChecked(old),
            (old, Some(new)) if old.is_same(&new) => Fate::Same(new),
            (old, Some(new)) => Fate::Changed { old, new },
        };
        Self {
            subject: question.subject(),
            fate,
        }
    }

    /// Whether the table is at fault, so that every other rule would fare the same.
    pub fn blames_what_is_shared(&self) -> bool {
        matches!(&self.fate, Fate::NotChecked(outcome) if outcome.blames_what_is_shared())
    }

    /// Whether nothing has changed.
    pub fn is_as_before(&self) -> bool {
        matches!(self.fate, Fate::Stays { .. } | Fate::Same(_))
    }

    /// What is printed for it, with the names of the two schemas.
    pub fn text(self, palette: &Palette, [old_file, new_file]: [&Path; 2]) -> String {
        let subject = self.subject;
        let outcome_text = |outcome| report::text(palette, &Checked { subject, outcome });
        let under = |file: &Path, outcome| {
            let file = name(file.as_os_str());
            let text = outcome_text(outcome);
            let lines = text.lines().map(|line| format!("    {line}\n"));
            format!("  under {file}\n{}", lines.collect::<String>())
        };
        let subject = report::subject(subject);
        match self.fate {
            Fate::Stays { passed } => {
                let word = palette.paint(Colour::Green, "stays accepted");
                let passed = accepted(passed);
                format!("{subject}: {word} by the theorem, not checked again; {passed}\n")
            }
            Fate::Same(outcome) => {
                let text = outcome_text(outcome);
                format!("{subject}: as before\n{}", indented(&text))
            }
            Fate::Changed { old, new } => {
                let word = palette.paint(Colour::Red, "changed");
                let (old, new) = (under(old_file, old), under(new_file, new));
                format!("{subject}: {word}\n{old}{new}")
            }
            Fate::NotChecked(outcome) => outcome_text(outcome),
        }
    }

    /// Its line of JSON.
    pub fn line(&self) -> String {
        let mut object = Object::new();
        subject_member(&mut object, self.subject);
        let side = |outcome: &Outcome| {
            let mut object = Object::new();
            outcome_members(&mut object, outcome);
            object
        };
        match &self.fate {
            Fate::Stays { passed } => {
                object.text("change", "stays");
                object.object("old", &side(&Outcome::Accepted { passed: *passed }));
            }
            Fate::Same(outcome) => {
                object.text("change", "same");
                object.object("old", &side(outcome));
                object.object("new", &side(outcome));
            }
            Fate::Changed { old, new } => {
                object.text("change", "changed");
                object.object("old", &side(old));
                object.object("new", &side(new));
            }
            Fate::NotChecked(outcome) => outcome_members(&mut object, outcome),
        }
        object.line()
    }
}

fn indented(text: &str) -> String {
    text.lines().map(|line| format!("  {line}\n")).collect()
}

/// How many rules there were of each fate.
#[derive(Default)]
pub struct Fates {
    stay: usize,
    same: usize,
    changed: usize,
    not_checked: usize,
}

impl Fates {
    pub fn count(&mut self, fate: &Fate) {
        let counter = match fate {
            Fate::Stays { .. } => &mut self.stay,
            Fate::Same(_) => &mut self.same,
            Fate::Changed { .. } => &mut self.changed,
            Fate::NotChecked(_) => &mut self.not_checked,
        };
        *counter = counter.saturating_add(1);
    }

    /// The exit status: 0 nothing has changed, 1 something has, 2 one could not be checked.
    pub fn status(&self) -> u8 {
        match (self.changed, self.not_checked) {
            (0, 0) => 0,
            (_, 0) => 1,
            _ => 2,
        }
    }

    /// One line for so many rules.
    pub fn summary(&self, total: usize) -> String {
        let Self {
            stay,
            same,
            changed,
            ..
        } = self;
        let told = [stay, same, changed]
            .into_iter()
            .fold(0, |sum: usize, count| sum.saturating_add(*count));
        let left = match total.saturating_sub(told) {
            0 => String::new(),
            left => format!(", {left} not checked"),
        };
        format!("{total} rules: {stay} stay accepted, {same} as before, {changed} changed{left}")
    }
}
