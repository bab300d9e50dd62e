//! What each command takes of the words and options, or what was expected instead.

use super::options::Options;
use super::{
    Arguments, Asked, BookRun, Command, DefinitionRun, Instants, Opening, Output, Pair, Upgrade,
    Versions,
};
use entity_rules::{Kind, Reader, Semantics};
use std::ffi::OsString;
use std::path::PathBuf;

impl Options {
    pub fn definition(self) -> Result<DefinitionRun, String> {
        let sarif = self.output.sarif;
        if self.output.json && sarif {
            return Err("definition: expected --json or --sarif, not both".to_owned());
        }
        let output = Output {
            sarif: false,
            ..self.output
        };
        let words = Self { output, ..self };
        words.only_output("definition")?;
        match words.words.as_slice() {
            [file] => Ok(DefinitionRun {
                file: file.into(),
                output: Output { sarif, ..output },
            }),
            _ => Err("definition: expected one file DEFINITION".to_owned()),
        }
    }

    pub fn check(self) -> Result<Arguments, String> {
        self.once("check")?;
        not_for("check", &[("--write", self.write)])?;
        if self.output.json && self.output.sarif {
            return Err("check: expected --json or --sarif, not both".to_owned());
        }
        let (schema, rules) = self.split("check", "files SCHEMA and RULE", "file RULE")?;
        self.rules("check", schema, &rules)
    }

    pub fn tally(self) -> Result<Command, String> {
        if let Some(run) = self.whole_definition("tally")? {
            return Ok(Command::TallyDefinition(run));
        }
        not_for("tally", &[("--label", self.label.is_some())])?;
        self.book_run("tally").map(Command::Tally)
    }

    /// The definition, where one word is given and nothing about rules.
    fn whole_definition(&self, command: &str) -> Result<Option<DefinitionRun>, String> {
        let ([file], None, None, false) =
            (self.words.as_slice(), self.kind, self.semantics, self.write)
        else {
            return Ok(None);
        };
        self.only_output(command)?;
        Ok(Some(DefinitionRun {
            file: file.into(),
            output: self.output,
        }))
    }

    pub fn wall(self) -> Result<BookRun, String> {
        let given = [("--json", self.output.json), ("--quiet", self.output.quiet)];
        not_for("wall", &given)?;
        self.book_run("wall")
    }

    /// What a command about a whole book is given.
    fn book_run(self, command: &str) -> Result<BookRun, String> {
        self.once(command)?;
        let given = [
            ("--reader", self.reader.is_some()),
            ("--sarif", self.output.sarif),
            ("--constants", self.output.constants),
            ("--write", self.write),
            ("--fail-on", self.fail_on_worse),
        ];
        not_for(command, &given)?;
        let [schema, book] = self.words.as_slice() else {
            return Err(format!("{command}: expected the files SCHEMA and BOOK"));
        };
        Ok(BookRun {
            schema: schema.into(),
            book: book.into(),
            kind: self.kind(command)?,
            semantics: self.semantics(command)?,
            label: self.label,
            table: self.table,
            output: self.output,
        })
    }

    fn kind(&self, command: &str) -> Result<Kind, String> {
        self.kind.ok_or_else(|| missing_kind(command))
    }

    fn semantics(&self, command: &str) -> Result<Semantics, String> {
        self.semantics.ok_or_else(|| {
            let option = "--semantics SEMANTICS";
            missing(command, option, Semantics::ALL)
        })
    }

    pub fn widens(self) -> Result<Pair, String> {
        self.only_output("widens")?;
        self.once("widens")?;
        match self.words.as_slice() {
            [old, new] => Ok(Pair {
                old: old.into(),
                new: new.into(),
                output: self.output,
            }),
            _ => Err("widens: expected the files OLD and NEW".to_owned()),
        }
    }

    pub fn open(self) -> Result<Command, String> {
        if let Some(run) = self.whole_definition("open")? {
            return Ok(Command::OpenDefinition(run));
        }
        self.once("open")?;
        let given = [
            ("--sarif", self.output.sarif),
            ("--constants", self.output.constants),
        ];
        not_for("open", &given)?;
        if self.write && (self.output.json || self.output.quiet) {
            return Err("open: expected --write without --json and --quiet".to_owned());
        }
        let write = self.write;
        let (schema, rules) = self.split("open", "files SCHEMA and RULE", "file RULE")?;
        Ok(Command::Open(Opening {
            check: self.rules("open", schema, &rules)?,
            write,
        }))
    }

    pub fn upgrade(self) -> Result<Command, String> {
        self.once("upgrade")?;
        let given = [
            ("--sarif", self.output.sarif),
            ("--constants", self.output.constants),
            ("--write", self.write),
        ];
        not_for("upgrade", &given)?;
        let is_of_rules = self.kind.is_some() || self.semantics.is_some() || self.label.is_some();
        match self.words.clone().as_slice() {
            [] | [_] => Err("upgrade: expected the files OLD, NEW and RULE".to_owned()),
            [_, new] if is_of_rules => Err(format!(
                "upgrade: expected at least one file RULE after {new:?}"
            )),
            [old, new] => self.versions(old.into(), new.into()),
            [old, new, rules @ ..] => Ok(Command::Upgrade(Upgrade {
                check: self.rules("upgrade", old.into(), rules)?,
                new: new.into(),
            })),
        }
    }

    fn versions(self, old: PathBuf, new: PathBuf) -> Result<Command, String> {
        let given = [
            ("--reader", self.reader.is_some()),
            ("--table", self.table.is_some()),
        ];
        not_for("upgrade of definitions", &given)?;
        Ok(Command::Versions(Versions {
            old,
            new,
            output: self.output,
            fail_on_worse: self.fail_on_worse,
        }))
    }

    /// That standard input is named at most once among the files.
    fn once(&self, command: &str) -> Result<(), String> {
        let table = self.table.as_ref().map(|file| file.as_os_str());
        let files = self.words.iter().map(OsString::as_os_str).chain(table);
        match files.filter(|file| *file == "-").count() {
            0 | 1 => Ok(()),
            _ => Err(format!(
                "{command}: expected `-`, standard input, at most once"
            )),
        }
    }

    /// What a command that checks rules is given.
    fn rules(
        self,
        command: &str,
        schema: PathBuf,
        rules: &[OsString],
    ) -> Result<Arguments, String> {
        let given = [
            ("--reader", self.reader.is_some()),
            ("--fail-on", self.fail_on_worse),
        ];
        not_for(command, &given)?;
        let asked = Asked::Rules {
            files: rules.iter().map(PathBuf::from).collect(),
            kind: self.kind,
            label: self.label.clone(),
            table: self.table.clone(),
        };
        self.arguments(command, schema, asked)
    }

    pub fn path(self) -> Result<Arguments, String> {
        let given = [
            ("--kind", self.kind.is_some()),
            ("--label", self.label.is_some()),
            ("--table", self.table.is_some()),
            ("--sarif", self.output.sarif),
            ("--constants", self.output.constants),
            ("--write", self.write),
            ("--fail-on", self.fail_on_worse),
        ];
        not_for("path", &given)?;
        let (schema, paths) = self.split("path", "file SCHEMA and a PATH", "PATH")?;
        let reader = self.reader.unwrap_or(Reader::Kernel);
        self.arguments("path", schema, Asked::Keys { paths, reader })
    }

    /// What a command is given that takes files and no option.
    pub fn files(self, command: &str, file: &str) -> Result<Vec<PathBuf>, String> {
        self.only_output(command)?;
        let given = [("--json", self.output.json), ("--quiet", self.output.quiet)];
        not_for(command, &given)?;
        self.once(command)?;
        match self.words.is_empty() {
            true => Err(format!("{command}: expected at least one {file}")),
            false => Ok(self.words.iter().map(PathBuf::from).collect()),
        }
    }

    /// What a command is given that takes one file and no option.
    pub fn file(self, command: &str) -> Result<PathBuf, String> {
        let files = self.files(command, "file")?;
        match <[PathBuf; 1]>::try_from(files) {
            Ok([file]) => Ok(file),
            Err(_) => Err(format!("{command}: expected one file alone")),
        }
    }

    pub fn instant(self) -> Result<Instants, String> {
        self.only_output("instant")?;
        match self.words.is_empty() {
            true => Err("instant: expected at least one TEXT".to_owned()),
            false => Ok(Instants {
                texts: self.words,
                output: self.output,
            }),
        }
    }

    /// That no option is given but those that say how outcomes are printed.
    fn only_output(&self, command: &str) -> Result<(), String> {
        let given = [
            ("--kind", self.kind.is_some()),
            ("--semantics", self.semantics.is_some()),
            ("--reader", self.reader.is_some()),
            ("--label", self.label.is_some()),
            ("--table", self.table.is_some()),
            ("--sarif", self.output.sarif),
            ("--constants", self.output.constants),
            ("--write", self.write),
            ("--fail-on", self.fail_on_worse),
        ];
        not_for(command, &given)
    }

    /// The schema's file and the other words, of which there is one at least.
    fn split(
        &self,
        command: &str,
        both: &str,
        other: &str,
    ) -> Result<(PathBuf, Vec<OsString>), String> {
        match self.words.split_first() {
            None => Err(format!("{command}: expected the {both}")),
            Some((schema, [])) => Err(format!(
                "{command}: expected at least one {other} after {schema:?}"
            )),
            Some((schema, others)) => Ok((PathBuf::from(schema), others.to_vec())),
        }
    }

    fn arguments(self, command: &str, schema: PathBuf, asked: Asked) -> Result<Arguments, String> {
        Ok(Arguments {
            schema,
            asked,
            semantics: self.semantics(command)?,
            output: self.output,
        })
    }
}

/// That the command does not take an option that is given.
fn not_for(command: &str, options: &[(&str, bool)]) -> Result<(), String> {
    match options.iter().find(|(_, is_given)| *is_given) {
        Some((option, _)) => Err(format!(
            "{command}: {option} is not an option of this command"
        )),
        None => Ok(()),
    }
}

/// That the option `--kind` is missing.
pub fn missing_kind(command: &str) -> String {
    missing(command, "--kind KIND", Kind::ALL)
}

/// That an option is missing, and what it could be.
fn missing(command: &str, option: &str, all: &[impl ToString]) -> String {
    let names: Vec<String> = all.iter().map(ToString::to_string).collect();
    format!("{command}: expected {option}, one of {}", names.join(", "))
}
