//! `definition` as people and programs run it.

mod support;

use std::fs;
use std::io::Write;
use std::path::Path;
use std::process::{Command, Stdio};
use support::tool::{folder, mill, printed, run};

const AROUND: &str = r#""entity":"e","schema":{},"lifecycle":{"initial":"s","states":["s"]}"#;

/// What is printed for a text on standard input, and the status.
fn given(text: &str, options: &[&str]) -> (Option<i32>, String) {
    let mut tool = Command::new(env!("CARGO_BIN_EXE_entity-rules"))
        .args(["definition", "-"])
        .args(options)
        .stdin(Stdio::piped())
        .stdout(Stdio::piped())
        .spawn()
        .expect("the tool runs");
    let mut input = tool.stdin.take().expect("standard input");
    input.write_all(text.as_bytes()).expect("the text");
    drop(input);
    let output = tool.wait_with_output().expect("the tool ends");
    let out = String::from_utf8(output.stdout).expect("the tool prints UTF-8");
    (output.status.code(), out)
}

fn pattern() -> String {
    fs::read_to_string(mill().join("pattern.json")).expect("the mill's definition")
}

/// The mill's definition with a letter missing.
fn misspelt() -> String {
    pattern().replace("threaded\", true", "threded\", true")
}

#[test]
fn the_readmes_show_what_is_printed() {
    let (status, out) = given(&misspelt(), &[]);
    assert_eq!(status, Some(1));
    for readme in [
        include_str!("../README.md"),
        include_str!("../../README.md"),
    ] {
        let command = "$ sed 's/threaded\", true/threded\", true/' pattern.json | entity-rules definition -\n";
        let (_, shown) = readme.split_once(command).expect("the command");
        let (shown, _) = shown.split_once("```").expect("the end of the example");
        assert_eq!(out, shown);
    }
    let (status, out) = printed(&mill(), "definition pattern.json");
    assert_eq!(status, Some(0));
    let first = "pattern.json: pattern, version 3, service/1: 25 rules, 2 conditions, 35 templates, 3 keys\n65 accepted, 0 with a defect. ";
    assert!(out.starts_with(first), "{out}");
    assert_eq!(
        printed(&mill(), "definition pattern.json --quiet"),
        (Some(0), String::new())
    );
}

/// The keys of a line of JSON, in their order.
fn keys(line: &str) -> Vec<&str> {
    let quoted: Vec<&str> = line.split("\":").collect();
    let names = quoted.iter().take(quoted.len().saturating_sub(1));
    names.filter_map(|part| part.rsplit('"').next()).collect()
}

#[test]
fn json_has_a_line_for_each_place_with_the_same_keys() {
    let text = format!(
        r#"{{{AROUND},
  "invariants": [{{"assert": true}}, {{"assert": {{"exists": "$fields.é"}}}}],
  "projections": {{"a/b": {{"key": "$x"}}}}
}}"#
    );
    let (status, out) = given(&text, &["--json"]);
    assert_eq!(status, Some(1));
    let lines: Vec<&str> = out.lines().collect();
    assert_eq!(
        lines[..2],
        [
            r#"{"label":"invariants[0]","pointer":"/invariants/0","line":2,"column":18,"kind":"invariant","number":0,"family":0,"detail":0,"path":"","message":"","passed":4}"#,
            r#"{"label":"invariants[1]","pointer":"/invariants/1","line":2,"column":67,"kind":"invariant","number":18,"family":1,"detail":2,"path":"invariants[1].assert.exists","message":"'$fields.é' cannot resolve: unknown field 'é'","passed":4}"#,
        ]
    );
    assert!(lines[2].starts_with(
        r#"{"label":"projections.a/b","pointer":"/projections/a~1b/key","line":3,"column":35,"kind":"projection","number":18,"family":2,"detail":12,"path":"projections.a/b","message":"`key`: '$x' is not"#
    ), "{}", lines[2]);
    assert!(lines[3].starts_with(r#"{"not_checked":[],"not_covered":["the entity's name"#));
    assert_eq!(lines.len(), 4);
    let same = [
        "label", "pointer", "line", "column", "kind", "number", "family", "detail", "path",
        "message", "passed",
    ];
    let (_, out) = printed(&mill(), "definition pattern.json --json");
    let places = out.lines().filter(|line| line.starts_with(r#"{"label""#));
    let mut count = 0;
    for line in places {
        assert_eq!(keys(line), same, "{line}");
        count += 1;
    }
    assert_eq!(count, 65);
}

#[test]
fn what_passes_a_limit_is_not_checked_and_said_so() {
    let long = "l".repeat(513);
    let text = format!(
        r#"{{{AROUND},"invariants":[{{"assert":{{"exists":"{long}"}}}},{{"assert":{{"exists":"$x"}}}}]}}"#
    );
    let (status, out) = given(&text, &[]);
    assert_eq!(status, Some(2));
    let told = "refused 32 (sheet limit): invariants[0] is not checked: this text has 513 bytes, and 512 are the most that one may have\n";
    assert!(out.contains(told), "{out}");
    assert!(
        out.contains("0 accepted, 1 with a defect, 1 not checked."),
        "{out}"
    );
    let (status, out) = given(&text, &["--json"]);
    assert_eq!(status, Some(2));
    assert!(out.contains(r#""number":32,"family":0,"detail":0,"path":"","message":"invariants[0] is not checked: this text"#), "{out}");
    assert!(
        out.contains(
            r#"{"not_checked":[{"label":"invariants[0]","pointer":"/invariants/0","line":1,"#
        ),
        "{out}"
    );
}

#[test]
fn what_is_no_definition_is_refused_whole() {
    let text = pattern().replace("\"preconditions\"", "\"precondition\"");
    let (status, out) = given(&text, &[]);
    assert_eq!(status, Some(2));
    assert_eq!(
        out,
        "-:282:7: not a definition: an operation has no member \"precondition\"; did you mean `preconditions`?\n  at      \"precondition\": [\n          ^\n"
    );
    let (status, out) = given(&text, &["--json"]);
    assert_eq!(status, Some(2));
    assert!(
        out.starts_with(r#"{"verdict":"refused","explanation":"an operation has no member"#),
        "{out}"
    );
    assert!(out.contains("\"line\":282,\"column\":7,\"byte\":"), "{out}");
    let (status, out) = given(&text, &["--sarif"]);
    assert_eq!(status, Some(2));
    assert!(out.contains(r#""startLine":282,"startColumn":7"#), "{out}");
    let missing = run(Path::new("."), "definition no/such/file.json");
    assert_eq!(missing.status.code(), Some(2));
    let out = String::from_utf8_lossy(&missing.stdout);
    assert!(
        out.starts_with(
            "no/such/file.json: unreadable: expected a file that holds a definition in JSON: "
        ),
        "{out}"
    );
}

#[test]
fn sarif_has_the_places_in_the_file() {
    let folder = folder("definition-sarif");
    fs::write(folder.join("pattern.json"), misspelt()).expect("a definition");
    let (status, out) = printed(&folder, "definition pattern.json --sarif");
    assert_eq!(status, Some(1));
    assert_eq!(out.matches("\"ruleId\":\"18.3\"").count(), 1);
    assert!(out.contains(r#""uri":"pattern.json""#));
    assert!(out.contains(r#""fullyQualifiedName":"operations.release.preconditions[0].assert.all[1].for_all.that.eq[0]""#), "{out}");
}

#[test]
fn other_options_are_not_taken() {
    for (words, told) in [
        ("definition", "definition: expected one file DEFINITION"),
        ("definition a b", "definition: expected one file DEFINITION"),
        (
            "definition a --json --sarif",
            "definition: expected --json or --sarif, not both",
        ),
        (
            "definition a --semantics service/1",
            "definition: --semantics is not an option of this command",
        ),
        (
            "definition a --kind invariant",
            "definition: --kind is not an option of this command",
        ),
    ] {
        let output = run(Path::new("."), words);
        assert_eq!(output.status.code(), Some(2));
        let error = String::from_utf8_lossy(&output.stderr);
        assert!(error.contains(told), "{error}");
    }
}

#[test]
fn tally_counts_the_places_of_a_definition() {
    let (status, out) = printed(&mill(), "tally pattern.json");
    assert_eq!(status, Some(0));
    let first = "pattern.json: tally of 65 sheets: 65 accepted, 0 with a defect, 0 refused; ";
    assert!(out.starts_with(first), "{out}");
    let folder = folder("definition-tally");
    fs::write(folder.join("pattern.json"), misspelt()).expect("a definition");
    let (status, out) = printed(&folder, "tally pattern.json --json");
    assert_eq!(status, Some(1));
    assert!(
        out.starts_with(
            r#"{"file":"pattern.json","verdict":"tallied","number":0,"read":65,"accepted":64,"#
        ),
        "{out}"
    );
    assert!(out.contains(r#""reference":1,"#), "{out}");
}

#[test]
fn open_says_what_to_open_for_the_places_of_a_definition() {
    assert_eq!(
        printed(&mill(), "open pattern.json --quiet"),
        (Some(0), String::new())
    );
    let folder = folder("definition-open");
    fs::write(folder.join("pattern.json"), misspelt()).expect("a definition");
    assert_eq!(
        printed(&folder, "open pattern.json"),
        (
            Some(0),
            "pattern.json:336:85: operations.release.preconditions[0]: accepted once `$fields.bars[]` is open\n"
                .to_owned()
        )
    );
    // No opening lets a projection read how long a text is, nor a key begin with `$$`.
    let text = pattern().replace("$fields.machine.name\", \"in", "$fields.name.count\", \"in");
    let text = text.replace("\"$fields.family\"}", "\"$$fields.family\"}");
    fs::write(folder.join("pattern.json"), text).expect("a definition");
    let (status, out) = printed(&folder, "open pattern.json --json");
    assert_eq!(status, Some(1));
    assert_eq!(
        out.matches(r#""helps":false,"open":[]}"#).count(),
        2,
        "{out}"
    );
}
