//! One rule, key path or instant, checked, with what a person wants to know about the answer.

use crate::arguments::{Arguments, Asked, Output};
use crate::blame::{self, Blame, Readable};
use crate::constant::{self, Always};
use crate::files::{Fault, NoSheet, Rule, Rules, Sheet, Unreadable, fault, read_sheet};
use crate::folders::Settings;
use crate::hint::{hint, no_member};
use crate::members::Tree;
use crate::outline::reached;
use crate::region::{Aim, Region};
use crate::source::Shown;
use crate::subject::Subject;
use entity_rules::entries::{Content, read_rule, read_schema};
use entity_rules::limits::TABLE_BYTES;
use entity_rules::{
    Check, Defect, DefectNumber, Detail, Instant, Kind, PathVerdict, Reader, ReferenceFault,
    Refusal, Semantics, Table, TableError, Verdict, check_path, instant,
};
use std::ffi::{OsStr, OsString};
use std::path::Path;

/// What was asked about, and what came of it.
pub struct Checked<'a> {
    pub subject: Subject<'a>,
    pub outcome: Outcome,
}

/// What is checked against the schema: one of what the command line asks for.
#[derive(Clone, Copy)]
pub enum Question<'a> {
    /// A rule or template.
    Rule {
        rule: Rule<'a>,
        kind: Kind,
        label: Option<&'a str>,
    },
    /// A file that should hold one, and does not.
    NoRule { file: &'a Path, why: &'a NoSheet },
    /// A path of the record's fields.
    Key { path: &'a OsStr, reader: Reader },
}

impl<'a> Question<'a> {
    pub fn subject(self) -> Subject<'a> {
        match self {
            Self::Rule { rule, .. } => rule.subject,
            Self::NoRule { file, .. } => Subject::File(file),
            Self::Key { path, .. } => Subject::Key(path),
        }
    }
}

impl Asked {
    /// Each question, in the order given; the rules are those of the files that it names.
    pub fn questions<'a>(&'a self, rules: &'a Rules<Settings>) -> Vec<Question<'a>> {
        match self {
            Self::Rules { .. } => {
                let all = rules.all().into_iter();
                all.map(|(rule, settings)| match rule {
                    Ok(rule) => Question::Rule {
                        rule,
                        kind: settings.kind,
                        label: settings.label.as_deref(),
                    },
                    Err((file, why)) => Question::NoRule { file, why },
                })
                .collect()
            }
            Self::Keys { paths, reader } => {
                let reader = *reader;
                let key = |path| Question::Key { path, reader };
                paths.iter().map(OsString::as_os_str).map(key).collect()
            }
        }
    }
}

pub enum Outcome {
    Accepted {
        passed: u32,
    },
    /// Accepted, with the constant conditions that were asked for.
    Marked {
        passed: u32,
        constants: Vec<Always>,
    },
    Defect {
        defect: Box<Defect>,
        at: Option<Spot>,
        over: Option<Spot>,
        blame: Option<Box<Blame>>,
        hint: Option<String>,
    },
    /// A key path that cannot be read; no check passed before that one.
    KeyDefect {
        fault: ReferenceFault,
        blame: Option<Box<Blame>>,
        hint: Option<String>,
    },
    /// The fields of an instant.
    Instant(Instant),
    NoInstant,
    Refused {
        refusal: Refusal,
        fault: Option<Fault>,
    },
    Unreadable(Unreadable),
}

/// An entry of the rule sheet.
pub struct Spot {
    pub place: u32,
    /// The line of the file on which the entry begins, from 1.
    pub line: usize,
    /// The entry, or the part of its text that is at fault.
    pub region: Box<Region>,
    pub text: String,
    /// The line of a rule in JSON.
    pub shown: Option<Box<Shown>>,
}

/// A defect without what is said of it.
fn unsaid(defect: &Defect) -> Defect {
    Defect {
        message: String::new(),
        ..defect.clone()
    }
}

impl From<NoSheet> for Outcome {
    fn from(why: NoSheet) -> Self {
        match why {
            NoSheet::Unreadable(unreadable) => Self::Unreadable(unreadable),
            NoSheet::Refused { refusal, fault } => Self::Refused { refusal, fault },
        }
    }
}

impl Outcome {
    pub fn is_accepted(&self) -> bool {
        matches!(
            self,
            Self::Accepted { .. } | Self::Marked { .. } | Self::Instant(_)
        )
    }

    /// Whether it is accepted and there is nothing more to say.
    pub fn is_plain(&self) -> bool {
        match self {
            Self::Marked { constants, .. } => constants.is_empty(),
            other => other.is_accepted(),
        }
    }

    /// Whether it is the same answer as another, to the last number. The messages may differ: another schema can have a field of another kind there.
    pub fn is_same(&self, other: &Self) -> bool {
        match (self, other) {
            (Self::Accepted { passed }, Self::Accepted { passed: others }) => passed == others,
            (Self::Defect { defect, .. }, Self::Defect { defect: other, .. }) => {
                unsaid(defect) == unsaid(other)
            }
            _ => false,
        }
    }

    /// Whether the schema or the table is at fault, so that every other question would fare the same.
    pub fn blames_what_is_shared(&self) -> bool {
        match self {
            Self::Refused { refusal, .. } => matches!(
                refusal,
                Refusal::SchemaSheet | Refusal::TableForm | Refusal::TableMark
            ),
            Self::Unreadable(unreadable) => unreadable.sheet != Sheet::Rule,
            _ => false,
        }
    }
}

/// What all questions share: the schema, and a name table where one is given.
pub struct Shared {
    schema: Result<Vec<u8>, Unreadable>,
    table: Result<Names, NoSheet>,
}

/// The table as it is lent, no bytes for the stock table, and what it says.
pub struct Names {
    pub lent: Vec<u8>,
    table: Table,
}

impl Names {
    fn stock() -> Self {
        Self {
            lent: Vec::new(),
            table: Table::stock(),
        }
    }
}

impl Shared {
    pub fn new(schema: &Path, table: Option<&Path>) -> Self {
        Self {
            schema: read_sheet(schema, Sheet::Schema),
            table: table.map_or_else(|| Ok(Names::stock()), load),
        }
    }

    /// What a command that checks rules or paths is given.
    pub fn of(arguments: &Arguments) -> Self {
        let table = match &arguments.asked {
            Asked::Rules { table, .. } => table.as_deref(),
            Asked::Keys { .. } => None,
        };
        Self::new(&arguments.schema, table)
    }
}

/// Loads the table of a file.
fn load(file: &Path) -> Result<Names, NoSheet> {
    let sheet = read_sheet(file, Sheet::Table)?;
    let refused = |error: TableError| {
        let fault = error.fault();
        NoSheet::Refused {
            refusal: error.refusal(),
            fault: fault.map(|malformed| Fault::new(file, &sheet, &malformed)),
        }
    };
    let mut lent = vec![0; TABLE_BYTES];
    Table::load(&sheet, &mut lent).map_err(refused)?;
    let table = Table::read(&lent).map_err(refused)?;
    Ok(Names { lent, table })
}

impl<'a> Checked<'a> {
    pub fn new(arguments: &Arguments, shared: &Shared, question: Question<'a>) -> Self {
        let outcome = match (shared.ready(), question) {
            (Err(why), _) => why.into(),
            (Ok((names, schema)), Question::Rule { rule, kind, label }) => {
                rule_outcome(arguments, names, schema, rule, kind, label)
            }
            (Ok(_), Question::NoRule { why, .. }) => why.clone().into(),
            (Ok((_, schema)), Question::Key { path, reader }) => {
                key_outcome(arguments, schema, path, reader)
            }
        };
        Self {
            subject: question.subject(),
            outcome,
        }
    }

    /// A text that is read as an instant.
    pub fn instant(text: &'a OsStr) -> Self {
        let read = instant(text.as_encoded_bytes());
        Self {
            subject: Subject::Text(text),
            outcome: read.map_or(Outcome::NoInstant, Outcome::Instant),
        }
    }
}

impl Shared {
    /// The schema's bytes, or why there are none.
    pub fn schema(&self) -> Result<&[u8], &Unreadable> {
        self.schema.as_deref()
    }

    /// The table and the schema, or why one of them is missing.
    pub fn ready(&self) -> Result<(&Names, &[u8]), NoSheet> {
        match (&self.table, &self.schema) {
            (Ok(names), Ok(schema)) => Ok((names, schema)),
            (Err(why), _) => Err(why.clone()),
            (_, Err(unreadable)) => Err(unreadable.clone().into()),
        }
    }

    /// What comes of a question under another schema.
    pub fn outcome_under(
        &self,
        arguments: &Arguments,
        schema: &[u8],
        question: Question<'_>,
    ) -> Outcome {
        match (self.ready(), question) {
            (Ok((names, _)), Question::Rule { rule, kind, label }) => {
                rule_outcome(arguments, names, schema, rule, kind, label)
            }
            _ => Checked::new(arguments, self, question).outcome,
        }
    }

    /// The marks of the schema to open for a rule; none where there is no rule, or something shared is missing.
    pub fn openings(
        &self,
        arguments: &Arguments,
        question: Question<'_>,
    ) -> Option<Result<Option<Vec<u32>>, Refusal>> {
        match (self.ready(), question) {
            (Ok((names, schema)), Question::Rule { rule, kind, .. }) => {
                let check = Check::new(kind, arguments.semantics, "").table(&names.lent);
                Some(check.openings(schema, rule.bytes))
            }
            _ => None,
        }
    }

    /// What comes of a question, and, for a rule of which it is wanted then, what comes of it under another schema.
    pub fn outcomes(
        &self,
        arguments: &Arguments,
        other: &[u8],
        question: Question<'_>,
        is_wanted: impl Fn(&Outcome) -> bool,
    ) -> (Outcome, Option<Outcome>) {
        let outcome = Checked::new(arguments, self, question).outcome;
        let is_rule = self.ready().is_ok() && matches!(question, Question::Rule { .. });
        let after = (is_rule && is_wanted(&outcome))
            .then(|| self.outcome_under(arguments, other, question));
        (outcome, after)
    }
}

/// What comes of a rule.
fn rule_outcome(
    arguments: &Arguments,
    names: &Names,
    schema: &[u8],
    rule: Rule<'_>,
    kind: Kind,
    label: Option<&str>,
) -> Outcome {
    let own = rule.subject.label();
    let label = label.map_or(&*own, str::as_bytes);
    let check = Check::new(kind, arguments.semantics, label).table(&names.lent);
    let checked = check.run(schema, rule.bytes);
    let constants = checked
        .as_ref()
        .map_or(&[][..], |checked| &checked.constants);
    let always = arguments
        .output
        .constants
        .then(|| constant::all(label, rule, constants));
    match checked.map(|checked| checked.verdict) {
        Ok(Verdict::Accepted { passed }) => match always {
            Some(constants) => Outcome::Marked { passed, constants },
            None => Outcome::Accepted { passed },
        },
        Ok(Verdict::Defect(defect)) => {
            let readable = Readable {
                kind,
                semantics: arguments.semantics,
                table: &names.table,
            };
            located(defect, schema, rule, &readable)
        }
        Err(refusal @ Refusal::RuleSheet) => Outcome::Refused {
            refusal,
            fault: rule.fault(),
        },
        Err(refusal) => refused(&arguments.schema, schema, refusal),
    }
}

fn key_outcome(arguments: &Arguments, schema: &[u8], path: &OsStr, reader: Reader) -> Outcome {
    match check_path(arguments.semantics, reader, path.as_encoded_bytes(), schema) {
        Ok(PathVerdict::Accepted) => Outcome::Accepted { passed: 1 },
        Ok(PathVerdict::Defect(fault)) => Outcome::KeyDefect {
            fault,
            blame: key_blame(arguments.semantics, schema, path, fault).map(Box::new),
            hint: no_member(arguments.semantics, fault),
        },
        Err(refusal) => refused(&arguments.schema, schema, refusal),
    }
}

/// What comes of two sheets that are not read from their files.
pub fn sheets_outcome(
    kind: Kind,
    semantics: Semantics,
    [(schema_file, schema), (rule_file, rule)]: [(&Path, &[u8]); 2],
) -> Outcome {
    let names = Names::stock();
    let arguments = Arguments {
        schema: schema_file.to_owned(),
        asked: Asked::Keys {
            paths: Vec::new(),
            reader: Reader::Kernel,
        },
        semantics,
        output: Output::default(),
    };
    let rule = Rule::of_file(rule_file, rule);
    rule_outcome(&arguments, &names, schema, rule, kind, None)
}

/// The part of a key path that is at fault.
fn key_blame(
    semantics: Semantics,
    schema: &[u8],
    path: &OsStr,
    fault: ReferenceFault,
) -> Option<Blame> {
    blame::key(&Tree::new(schema)?, semantics, fault, path.to_str()?)
}

/// A refusal that is not the rule's, with the schema's fault if it is that one.
fn refused(file: &Path, schema: &[u8], refusal: Refusal) -> Outcome {
    let fault = match refusal {
        Refusal::SchemaSheet => fault(file, schema, read_schema),
        _ => None,
    };
    Outcome::Refused { refusal, fault }
}

/// A defect with the entries that it names, the part of a reference that is at fault, and a hint.
pub fn located(defect: Defect, schema: &[u8], rule: Rule<'_>, readable: &Readable<'_>) -> Outcome {
    let entries = read_rule(rule.bytes).unwrap_or_default();
    let entry = |place: u32| entries.get(usize::try_from(place).ok()?.checked_sub(1)?);
    let text = match entry(defect.place).map(|entry| entry.content) {
        Some(Content::String(text)) => text,
        _ => "",
    };
    let blame = match defect.detail {
        Detail::Reference(fault) => Tree::new(schema)
            .zip(reached(&entries, defect.place))
            .and_then(|(schema, reached)| readable.blame(&schema, &reached.binders, fault, text)),
        _ => None,
    };
    let spot = |place: u32, aim: Aim| {
        let entry = entry(place)?;
        Some(Spot {
            place,
            line: rule.line_of(place, entry.byte),
            region: Box::new(rule.region(place, entry.byte, aim)),
            text: entry.to_string(),
            shown: rule.shown(place, aim).map(Box::new),
        })
    };
    let aim = match (&blame, defect.number) {
        (Some(blame), _) => Aim::Part {
            before: blame.before.len(),
            length: blame.part.len(),
        },
        (None, DefectNumber::Name | DefectNumber::Bind) => Aim::First,
        (None, DefectNumber::Message) => Aim::Second,
        (None, _) => Aim::Entry,
    };
    Outcome::Defect {
        at: spot(defect.place, aim),
        over: (defect.over_place).and_then(|place| spot(place, Aim::Entry)),
        blame: blame.map(Box::new),
        hint: hint(readable, defect.detail, text),
        defect: Box::new(defect),
    }
}
