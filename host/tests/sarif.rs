//! The SARIF log, compared with what the schema of SARIF 2.1.0 requires of each of its objects.

use std::collections::BTreeMap;
use std::fs;
use std::path::{Path, PathBuf};
use std::process::Command;

/// A value of JSON, as far as a log needs them.
#[derive(Debug, PartialEq)]
enum Json {
    Text(String),
    Number(u64),
    List(Vec<Json>),
    Object(BTreeMap<String, Json>),
}

impl Json {
    fn read(text: &str) -> Self {
        let mut rest = text.trim_end();
        let value = Self::value(&mut rest);
        assert_eq!(rest, "");
        value
    }

    fn value(rest: &mut &str) -> Self {
        match rest.chars().next() {
            Some('"') => Self::Text(Self::text(rest)),
            Some('[') => Self::List(Self::members(rest, ['[', ']'], Self::value)),
            Some('{') => {
                let pair = |rest: &mut &str| (Self::text(rest), Self::behind_colon(rest));
                let members = Self::members(rest, ['{', '}'], pair);
                let count = members.len();
                let object: BTreeMap<String, Json> = members.into_iter().collect();
                assert_eq!(object.len(), count, "no key occurs twice");
                Self::Object(object)
            }
            _ => {
                let digits = rest.chars().take_while(char::is_ascii_digit).count();
                let (number, after) = rest.split_at(digits);
                *rest = after;
                Self::Number(number.parse().expect("a number"))
            }
        }
    }

    fn behind_colon(rest: &mut &str) -> Self {
        *rest = rest.strip_prefix(':').expect("a colon");
        Self::value(rest)
    }

    fn members<T>(
        rest: &mut &str,
        [open, close]: [char; 2],
        member: impl Fn(&mut &str) -> T,
    ) -> Vec<T> {
        *rest = rest.strip_prefix(open).expect("the beginning");
        let mut members = Vec::new();
        while !rest.starts_with(close) {
            if !members.is_empty() {
                *rest = rest.strip_prefix(',').expect("a comma");
            }
            members.push(member(rest));
        }
        *rest = &rest[1..];
        members
    }

    fn text(rest: &mut &str) -> String {
        let mut letters = rest.strip_prefix('"').expect("a quote").chars();
        let mut text = String::new();
        loop {
            match letters.next().expect("a letter") {
                '"' => break,
                '\\' => match letters.next() {
                    Some('u') => {
                        let digits: String = letters.by_ref().take(4).collect();
                        let code = u32::from_str_radix(&digits, 16).expect("digits");
                        text.push(char::from_u32(code).expect("a character"));
                    }
                    other => text.extend(other),
                },
                letter => text.push(letter),
            }
        }
        *rest = letters.as_str();
        text
    }

    fn at(&self, key: &str) -> &Self {
        match self {
            Self::Object(members) => members
                .get(key)
                .unwrap_or_else(|| panic!("{key} in {self:?}")),
            _ => panic!("{self:?} is not an object"),
        }
    }

    fn list(&self, key: &str) -> &[Self] {
        match self.at(key) {
            Self::List(members) => members,
            other => panic!("{other:?} is not a list"),
        }
    }

    fn is_text(&self, key: &str) -> String {
        match self.at(key) {
            Self::Text(text) => text.clone(),
            other => panic!("{other:?} is not a text"),
        }
    }
}

/// Compares a log with the schema: required members, names that there are, and the least values of a region. Answers its results.
fn hold(log: &Json) -> Vec<&Json> {
    assert_eq!(log.is_text("version"), "2.1.0");
    assert!(log.is_text("$schema").ends_with("/sarif-schema-2.1.0.json"));
    let mut results = Vec::new();
    for run in log.list("runs") {
        let driver = run.at("tool").at("driver");
        assert!(!driver.is_text("name").is_empty());
        assert!(["utf16CodeUnits", "unicodeCodePoints"].contains(&&*run.is_text("columnKind")));
        let mut ids: Vec<String> = Vec::new();
        for rule in driver.list("rules") {
            rule.at("shortDescription").is_text("text");
            ids.push(rule.is_text("id"));
        }
        for result in run.list("results") {
            assert!(!result.at("message").is_text("text").is_empty());
            assert!(["none", "note", "warning", "error"].contains(&&*result.is_text("level")));
            assert!(ids.contains(&result.is_text("ruleId")));
            for location in result.list("locations") {
                hold_location(location);
            }
            results.push(result);
        }
        ids.dedup();
        assert_eq!(
            ids.len(),
            driver.list("rules").len(),
            "no identifier occurs twice"
        );
    }
    results
}

fn hold_location(location: &Json) {
    let physical = location.at("physicalLocation");
    let uri = physical.at("artifactLocation").is_text("uri");
    assert!(uri.is_ascii() && !uri.contains([' ', '\\', '"']), "{uri}");
    let Json::Object(members) = physical else {
        panic!("{physical:?} is not an object");
    };
    if let Some(region) = members.get("region") {
        for key in ["startLine", "startColumn", "endLine", "endColumn"] {
            assert!(matches!(region.at(key), Json::Number(1..)), "{key}");
        }
    }
}

fn run(folder: &Path, words: &str) -> (Option<i32>, Json) {
    let output = Command::new(env!("CARGO_BIN_EXE_entity-rules"))
        .args(
            format!("check {words} --sarif --kind precondition --semantics service/1")
                .split_whitespace(),
        )
        .current_dir(folder)
        .output()
        .expect("the tool runs");
    assert!(output.stderr.is_empty(), "{output:?}");
    let text = String::from_utf8(output.stdout).expect("UTF-8");
    (output.status.code(), Json::read(&text))
}

fn mill() -> PathBuf {
    Path::new(env!("CARGO_MANIFEST_DIR")).join("examples/mill")
}

#[test]
fn a_log_has_what_the_schema_requires() {
    let words = "pattern.schema release.rule misspelt.rule fits.rule pattern.schema none.rule";
    let (status, log) = run(&mill(), words);
    let ids: Vec<String> = hold(&log)
        .iter()
        .map(|result| result.is_text("ruleId"))
        .collect();
    assert_eq!(
        (status, ids),
        (
            Some(2),
            ["18.3", "18.2", "5", "unreadable"]
                .map(str::to_owned)
                .to_vec()
        )
    );
}

#[test]
fn a_defect_is_shown_in_place() {
    let (status, log) = run(&mill(), "pattern.schema misspelt.rule");
    let results = hold(&log);
    assert_eq!((status, results.len()), (Some(1), 1));
    let location = &results[0].list("locations")[0];
    let region = location.at("physicalLocation").at("region");
    let place = ["startLine", "startColumn", "endLine", "endColumn"].map(|key| region.at(key));
    assert_eq!(place, [5, 13, 5, 20].map(Json::Number).each_ref());
    let path = location.list("logicalLocations")[0].is_text("fullyQualifiedName");
    assert_eq!(path, "misspelt.assert.for_all.that.eq[0]");
}

#[test]
fn what_is_accepted_gives_an_empty_log() {
    let (status, log) = run(&mill(), "pattern.schema release.rule");
    assert_eq!((status, hold(&log).len()), (Some(0), 0));
}

#[test]
fn a_schema_at_fault_is_one_result() {
    let (status, log) = run(&mill(), "release.rule release.rule misspelt.rule");
    let results = hold(&log);
    assert_eq!((status, results.len()), (Some(2), 1));
    let location = &results[0].list("locations")[0];
    let artifact = location.at("physicalLocation").at("artifactLocation");
    assert_eq!(artifact.is_text("uri"), "release.rule");
}

#[test]
fn names_and_texts_of_any_letters_are_written() {
    let folder = Path::new(env!("CARGO_TARGET_TMPDIR")).join("sarif");
    let _ = fs::remove_dir_all(&folder);
    fs::create_dir_all(&folder).expect("a folder");
    fs::write(folder.join("s"), "H,0,0,-,0\n").expect("a schema");
    fs::write(folder.join("ü\"%.rule"), "T\nV,5,13,$fields.\"é\\\x1b\n").expect("a template");
    let (_, log) = run(&folder, "s ü\"%.rule");
    let results = hold(&log);
    let artifact = results[0].list("locations")[0]
        .at("physicalLocation")
        .at("artifactLocation");
    assert_eq!(artifact.is_text("uri"), "%C3%BC%22%25.rule");
    let message = "'$fields.\"é\\\x1b' cannot resolve: unknown field '\"é\\\x1b'";
    assert_eq!(results[0].at("message").is_text("text"), message);
}

#[test]
fn what_has_no_sentence_is_explained() {
    let folder = Path::new(env!("CARGO_TARGET_TMPDIR")).join("sarif_words");
    let _ = fs::remove_dir_all(&folder);
    fs::create_dir_all(&folder).expect("a folder");
    fs::write(folder.join("s"), "H,0,0,-,0\n").expect("a schema");
    let deep = format!("R,-,-,\n{}C,1,1,\n", "C,4,0,\n".repeat(40));
    let bind = "R,-,-,\nC,20,3,a.b\nV,1,0,\nC,1,1,\n".to_owned();
    for (file, sheet) in [("deep", deep), ("bind", bind)] {
        fs::write(folder.join(file), sheet).expect("a rule");
    }
    let (_, log) = run(&folder, "s deep bind");
    let messages: Vec<String> = hold(&log)
        .iter()
        .map(|result| result.at("message").is_text("text"))
        .collect();
    let expected = [
        "conditions nest deeper than 32: `41`",
        "a bind is blank or contains a dot: `a.b`",
    ];
    assert_eq!(messages, expected);
}
