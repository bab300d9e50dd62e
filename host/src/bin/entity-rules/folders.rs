//! Folders of rules, and the list in a folder that gives the kind and the label of its files.

use crate::near::unknown;
use crate::printed::name;
use entity_rules::Kind;
use std::collections::{BTreeMap, btree_map};
use std::ffi::{OsStr, OsString};
use std::io::{self, ErrorKind};
use std::path::{Path, PathBuf};
use std::{fs, str};

/// The file of a folder that lists kinds and labels. It is not a rule itself.
const LIST: &str = "rules.list";

/// A file of rules, with settings of its own.
#[derive(Debug, PartialEq)]
pub struct RuleFile<S> {
    pub file: PathBuf,
    pub settings: S,
}

/// How the rules of a file are checked.
#[derive(Clone, Debug, PartialEq)]
pub struct Settings {
    pub kind: Kind,
    pub label: Option<String>,
}

/// The files that these words name, in their order; a folder means its files. The settings are those of the folder's list, where it has the file.
pub fn expand(words: &[PathBuf]) -> Result<Vec<RuleFile<Option<Settings>>>, String> {
    let mut files = Vec::new();
    for word in words {
        match word.as_os_str() != "-" && word.is_dir() {
            true => files.extend(folder(word)?),
            false => files.push(RuleFile {
                file: word.clone(),
                settings: None,
            }),
        }
    }
    Ok(files)
}

/// The same with the settings of the command line for files that no list has.
pub fn settle(
    words: &[PathBuf],
    kind: Option<Kind>,
    label: Option<&str>,
) -> Result<Vec<RuleFile<Settings>>, NotSettled> {
    let settle = |RuleFile { file, settings }: RuleFile<Option<Settings>>| {
        let settings = match (settings, kind) {
            (Some(listed), _) => Settings {
                label: listed.label.or_else(|| label.map(str::to_owned)),
                ..listed
            },
            (None, Some(kind)) => Settings {
                kind,
                label: label.map(str::to_owned),
            },
            (None, None) => return Err(NotSettled::Kind(line_for(words, &file))),
        };
        Ok(RuleFile { file, settings })
    };
    let files = expand(words).map_err(NotSettled::Folder)?;
    files.into_iter().map(settle).collect()
}

/// Why files cannot be checked.
#[derive(Debug, PartialEq)]
pub enum NotSettled {
    /// What is wrong with a folder or its list.
    Folder(String),
    /// A file has no kind; for one of a folder, the line of the list that would give it one.
    Kind(Option<String>),
}

/// The line that would give a kind to a file, unless the file itself is among the words.
fn line_for(words: &[PathBuf], file: &Path) -> Option<String> {
    let folder = words.iter().find(|word| file.parent() == Some(word))?;
    let list = name(folder.join(LIST).as_os_str());
    let file = name(file.file_name()?);
    Some(format!("a line `{file} KIND` in {list}"))
}

/// The files of a folder in the order of their names, byte by byte: those that are not hidden, and those that its list has.
fn folder(folder: &Path) -> Result<Vec<RuleFile<Option<Settings>>>, String> {
    let shown = name(folder.as_os_str());
    let names = names(folder).map_err(|error| format!("{shown}: cannot be read: {error}"))?;
    let mut files: BTreeMap<OsString, Option<Settings>> =
        names.into_iter().map(|name| (name, None)).collect();
    for (file, settings) in list(folder)? {
        files.insert(file, Some(settings));
    }
    match files.is_empty() {
        true => Err(format!(
            "{shown}: expected a folder that has files of rules"
        )),
        false => Ok(files
            .into_iter()
            .map(|(name, settings)| RuleFile {
                file: folder.join(name),
                settings,
            })
            .collect()),
    }
}

/// The names in a folder that do not begin with a dot, but for the list. What is known not to be a file, such as a folder or a pipe, is left out.
fn names(folder: &Path) -> io::Result<Vec<OsString>> {
    let mut names = Vec::new();
    for entry in fs::read_dir(folder)? {
        let name = entry?.file_name();
        let is_hidden = name.as_encoded_bytes().starts_with(b".");
        let is_file = fs::metadata(folder.join(&name)).map_or(true, |about| about.is_file());
        if is_file && !is_hidden && name != LIST {
            names.push(name);
        }
    }
    Ok(names)
}

/// What the list of a folder says, nothing where it has none.
fn list(folder: &Path) -> Result<BTreeMap<OsString, Settings>, String> {
    let file = folder.join(LIST);
    let bytes = match fs::read(&file) {
        Err(error) if error.kind() == ErrorKind::NotFound => Ok(Vec::new()),
        read => read,
    };
    let shown = name(file.as_os_str());
    let bytes = bytes.map_err(|error| format!("{shown}: cannot be read: {error}"))?;
    let text = str::from_utf8(&bytes).map_err(|_| format!("{shown}: expected text in UTF-8"))?;
    listed(text).map_err(|(line, expected)| format!("{shown}:{line}: {expected}"))
}

/// The files of a list with their settings, or the line at fault and what was expected on it.
fn listed(text: &str) -> Result<BTreeMap<OsString, Settings>, (usize, String)> {
    let mut files = BTreeMap::new();
    for (line, number) in text.lines().map(str::trim).zip(1..) {
        if line.is_empty() || line.starts_with('#') {
            continue;
        }
        let (file, rest) = word(line);
        let (kind, label) = word(rest);
        let kind = match kind {
            "" => Err(format!(
                "expected `FILE KIND` or `FILE KIND LABEL`, not {line:?}"
            )),
            kind => kind.parse::<Kind>().map_err(|error| unknown(&error)),
        };
        let settings = Settings {
            kind: kind.map_err(|expected| (number, expected))?,
            label: (!label.is_empty()).then(|| label.to_owned()),
        };
        match files.entry(OsStr::new(file).to_owned()) {
            btree_map::Entry::Vacant(entry) => entry.insert(settings),
            btree_map::Entry::Occupied(_) => {
                return Err((
                    number,
                    format!("expected each file once, but {file:?} again"),
                ));
            }
        };
    }
    Ok(files)
}

/// The first word of a line, and what follows the blanks after it.
fn word(line: &str) -> (&str, &str) {
    let (word, rest) = line.split_once(char::is_whitespace).unwrap_or((line, ""));
    (word, rest.trim_start())
}

#[cfg(test)]
#[allow(clippy::unwrap_used)]
mod tests {
    use super::*;

    fn settings(kind: Kind, label: Option<&str>) -> Settings {
        let label = label.map(str::to_owned);
        Settings { kind, label }
    }

    #[test]
    fn a_line_has_a_file_its_kind_and_perhaps_a_label() {
        let text = "# kinds\n\n b.rule\tcreate-set  a  label \r\na.rule Invariant\n";
        let expected = [
            ("a.rule", settings(Kind::Invariant, None)),
            ("b.rule", settings(Kind::CreateSet, Some("a  label"))),
        ];
        let expected = expected.map(|(file, settings)| (file.into(), settings));
        assert_eq!(listed(text), Ok(BTreeMap::from(expected)));
        assert_eq!(listed(""), Ok(BTreeMap::new()));
    }

    #[test]
    fn errors_name_the_line_and_what_was_expected() {
        let error = |text| listed(text).unwrap_err();
        assert_eq!(
            error("\na.rule\n"),
            (
                2,
                "expected `FILE KIND` or `FILE KIND LABEL`, not \"a.rule\"".to_owned()
            )
        );
        let (line, told) = error("# a\na.rule invariant\nb.rule rule\n");
        assert_eq!(line, 3);
        assert!(told.starts_with("\"rule\" is not a known kind; expected one of invariant, "));
        assert_eq!(
            error("a invariant\na invariant\n"),
            (2, "expected each file once, but \"a\" again".to_owned())
        );
    }

    #[test]
    fn a_file_that_no_list_has_takes_the_settings_of_the_command_line() {
        let words = ["a".into(), "-".into()];
        let settled = settle(&words, Some(Kind::Invariant), Some("l")).unwrap();
        let expected = words.clone().map(|file| RuleFile {
            file,
            settings: settings(Kind::Invariant, Some("l")),
        });
        assert_eq!(settled, expected);
        assert_eq!(settle(&words, None, None), Err(NotSettled::Kind(None)));
    }
}
