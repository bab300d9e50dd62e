//! The words and options of a command, as they are met.

use super::Output;
use crate::near::{meant, unknown};
use entity_rules::{Kind, Reader, Semantics, UnknownName};
use std::ffi::OsString;
use std::path::PathBuf;
use std::str::FromStr;

pub const FLAGS: [&str; 5] = ["--json", "--quiet", "--sarif", "--constants", "--write"];

/// The options that take a value, and those that are asked before any command.
pub const OTHERS: [&str; 8] = [
    "--fail-on",
    "--kind",
    "--semantics",
    "--reader",
    "--label",
    "--table",
    "--help",
    "--version",
];

/// The words and options as they are met.
#[derive(Default)]
pub struct Options {
    pub words: Vec<OsString>,
    pub kind: Option<Kind>,
    pub semantics: Option<Semantics>,
    pub reader: Option<Reader>,
    pub label: Option<String>,
    pub table: Option<PathBuf>,
    pub write: bool,
    pub fail_on_worse: bool,
    pub output: Output,
}

impl Options {
    /// All words after the command, or the first that is not what was expected.
    pub fn read(mut words: impl Iterator<Item = OsString>) -> Result<Self, String> {
        let mut options = Self::default();
        while let Some(word) = words.next() {
            if word == "--" {
                options.words.extend(words.by_ref());
            } else if word != "-" && word.as_encoded_bytes().starts_with(b"-") {
                let option = word.to_str();
                let option = option
                    .ok_or_else(|| format!("expected an option that is text, not {word:?}"))?;
                options.take(option, &mut words)?;
            } else {
                options.words.push(word);
            }
        }
        Ok(options)
    }

    /// Takes one option, with its value after `=` or in the next word.
    fn take(
        &mut self,
        word: &str,
        words: &mut impl Iterator<Item = OsString>,
    ) -> Result<(), String> {
        let (name, mut given) = match word.split_once('=') {
            Some((name, value)) => (name, Some(OsString::from(value))),
            None => (word, None),
        };
        let is_flag = FLAGS.contains(&name);
        if is_flag && given.is_some() {
            return Err(format!("{name} takes no value"));
        }
        let mut word = || given.take().or_else(|| words.next());
        match name {
            "--json" => self.output.json = true,
            "--quiet" => self.output.quiet = true,
            "--sarif" => self.output.sarif = true,
            "--constants" => self.output.constants = true,
            "--write" => self.write = true,
            "--fail-on" => match text(name, word())?.as_str() {
                "worse" => self.fail_on_worse = true,
                other => return Err(format!("{name}: expected worse, not {other:?}")),
            },
            "--kind" => self.kind = Some(named(name, &text(name, word())?)?),
            "--semantics" => self.semantics = Some(named(name, &text(name, word())?)?),
            "--reader" => self.reader = Some(named(name, &text(name, word())?)?),
            "--label" => self.label = Some(text(name, word())?),
            "--table" => {
                let file = word().ok_or_else(|| after(name))?;
                self.table = Some(file.into());
            }
            _ => {
                let meant = meant(name, FLAGS.into_iter().chain(OTHERS));
                return Err(format!("unknown option {name:?}{meant}"));
            }
        }
        Ok(())
    }
}

/// That an option's value is missing.
fn after(option: &str) -> String {
    format!("{option}: expected a value after it")
}

fn text(option: &str, value: Option<OsString>) -> Result<String, String> {
    let value = value.ok_or_else(|| after(option))?;
    value
        .into_string()
        .map_err(|value| format!("{option}: expected text, not {value:?}"))
}

fn named<T: FromStr<Err = UnknownName>>(option: &str, value: &str) -> Result<T, String> {
    let named = value.parse();
    named.map_err(|error| format!("{option}: {}", unknown(&error)))
}
