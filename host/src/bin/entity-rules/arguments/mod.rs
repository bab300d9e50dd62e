//! The command line.

mod by_command;
mod help;
mod options;
#[cfg(test)]
mod tests;

pub use by_command::missing_kind;
pub use help::HELP;

use crate::commands::explain::meaning;
use crate::near::meant;
use entity_rules::{Kind, Reader, Semantics};
use options::Options;
use std::ffi::OsString;
use std::path::PathBuf;

const COMMANDS: [&str; 15] = [
    "definition",
    "check",
    "tally",
    "wall",
    "book",
    "path",
    "open",
    "widens",
    "upgrade",
    "instant",
    "show",
    "to-sheet",
    "to-json",
    "explain",
    "table",
];

/// What the command line asks for.
#[derive(Debug, PartialEq)]
pub enum Command {
    Help,
    Version,
    /// Checks every place of a definition.
    Definition(DefinitionRun),
    /// Tallies its places.
    TallyDefinition(DefinitionRun),
    /// Finds what to open in its schemas.
    OpenDefinition(DefinitionRun),
    Check(Arguments),
    Tally(BookRun),
    Wall(BookRun),
    /// Writes the book of these files.
    Book(Vec<PathBuf>),
    Open(Opening),
    Widens(Pair),
    Upgrade(Upgrade),
    /// One definition replaces another.
    Versions(Versions),
    Instants(Instants),
    /// Prints sheets as trees.
    Show(Vec<PathBuf>),
    /// Writes the sheet of a rule in JSON.
    ToSheet(PathBuf),
    /// Writes the JSON of rules.
    ToJson(Vec<PathBuf>),
    /// Says what a number means.
    Explain(meaning::Asked),
    /// Prints the stock table.
    Table,
}

/// What `definition` is given, and `tally` and `open` of a definition.
#[derive(Debug, PartialEq)]
pub struct DefinitionRun {
    pub file: PathBuf,
    pub output: Output,
}

/// What `tally` or `wall` is given.
#[derive(Debug, PartialEq)]
pub struct BookRun {
    pub schema: PathBuf,
    pub book: PathBuf,
    pub kind: Kind,
    pub semantics: Semantics,
    pub label: Option<String>,
    pub table: Option<PathBuf>,
    pub output: Output,
}

/// What `widens` is given.
#[derive(Debug, PartialEq)]
pub struct Pair {
    pub old: PathBuf,
    pub new: PathBuf,
    pub output: Output,
}

/// What `upgrade` is given: rules to check against the old schema, and the new one.
#[derive(Debug, PartialEq)]
pub struct Upgrade {
    pub check: Arguments,
    pub new: PathBuf,
}

/// What `upgrade` is given without rules: two versions of a definition.
#[derive(Debug, PartialEq)]
pub struct Versions {
    pub old: PathBuf,
    pub new: PathBuf,
    pub output: Output,
    /// Whether only what is worse makes the exit status 1.
    pub fail_on_worse: bool,
}

/// What `open` is given: rules to open the schema for.
#[derive(Debug, PartialEq)]
pub struct Opening {
    pub check: Arguments,
    /// Whether the schema is printed with everything opened that the rules need.
    pub write: bool,
}

/// What `instant` is given.
#[derive(Debug, PartialEq)]
pub struct Instants {
    pub texts: Vec<OsString>,
    pub output: Output,
}

/// What `check` or `path` is given.
#[derive(Debug, PartialEq)]
pub struct Arguments {
    pub schema: PathBuf,
    pub asked: Asked,
    pub semantics: Semantics,
    pub output: Output,
}

/// How outcomes are printed.
#[derive(Clone, Copy, Debug, Default, PartialEq)]
pub struct Output {
    pub json: bool,
    pub quiet: bool,
    pub sarif: bool,
    /// Whether constant conditions are printed.
    pub constants: bool,
}

/// What is checked against the schema.
#[derive(Debug, PartialEq)]
pub enum Asked {
    Rules {
        files: Vec<PathBuf>,
        /// The kind of files for which no list gives one.
        kind: Option<Kind>,
        label: Option<String>,
        table: Option<PathBuf>,
    },
    Keys {
        paths: Vec<OsString>,
        reader: Reader,
    },
}

impl Asked {
    /// What several of them are called.
    pub fn noun(&self) -> &'static str {
        match self {
            Self::Rules { .. } => "rules",
            Self::Keys { .. } => "paths",
        }
    }
}

/// The words after the program's name, or what was expected instead.
pub fn parse(words: impl IntoIterator<Item = OsString>) -> Result<Command, String> {
    let words: Vec<OsString> = words.into_iter().collect();
    let options_end = words
        .iter()
        .position(|word| word == "--")
        .unwrap_or(words.len());
    let has = |names: [&str; 2]| {
        words
            .iter()
            .take(options_end)
            .any(|word| names.iter().any(|name| word == name))
    };
    if has(["--help", "-h"]) {
        return Ok(Command::Help);
    }
    if has(["--version", "-V"]) {
        return Ok(Command::Version);
    }
    command(words.into_iter())
}

/// The command that the first word names, with what it takes of the others.
fn command(mut words: impl Iterator<Item = OsString>) -> Result<Command, String> {
    let name = words.next().ok_or_else(expected_command)?;
    match name.to_str() {
        Some("definition") => Options::read(words)?.definition().map(Command::Definition),
        Some("check") => Options::read(words)?.check().map(Command::Check),
        Some("tally") => Options::read(words)?.tally(),
        Some("wall") => Options::read(words)?.wall().map(Command::Wall),
        Some("book") => Options::read(words)?
            .files("book", "file RULE")
            .map(Command::Book),
        Some("path") => Options::read(words)?.path().map(Command::Check),
        Some("open") => Options::read(words)?.open(),
        Some("widens") => Options::read(words)?.widens().map(Command::Widens),
        Some("upgrade") => Options::read(words)?.upgrade(),
        Some("instant") => Options::read(words)?.instant().map(Command::Instants),
        Some("show") => Options::read(words)?
            .files("show", "file")
            .map(Command::Show),
        Some("to-sheet") => Options::read(words)?.file("to-sheet").map(Command::ToSheet),
        Some("to-json") => Options::read(words)?
            .files("to-json", "file RULE")
            .map(Command::ToJson),
        Some("explain") => {
            let words: Vec<OsString> = words.collect();
            meaning::parse(&words).map(Command::Explain)
        }
        Some("table") => match words.next() {
            None => Ok(Command::Table),
            Some(word) => Err(format!("table: expected nothing after it, not {word:?}")),
        },
        _ => {
            let meant = meant(&name.to_string_lossy(), COMMANDS);
            Err(format!("{}, not {name:?}{meant}", expected_command()))
        }
    }
}

fn expected_command() -> String {
    let names = COMMANDS.map(|name| format!("`{name}`")).join(", ");
    format!("expected a command, one of {names}")
}
