//! The tool on rules in JSON: every command that takes rules, with places in the text.

mod support;

use std::fs;
use std::io::Write;
use std::path::Path;
use std::process::{Command, Stdio};
use support::tool::{folder, mill, printed, run};

const SETTINGS: &str = "--kind precondition --semantics service/1";

/// What is printed for a check.
fn check(folder: &Path, words: &str) -> String {
    printed(folder, &format!("check {words} {SETTINGS}")).1
}

/// What is said on standard error where nothing is printed, with status 2.
fn complaint(folder: &Path, line: &str) -> String {
    let output = run(folder, line);
    assert_eq!(output.status.code(), Some(2));
    assert!(output.stdout.is_empty(), "{output:?}");
    String::from_utf8(output.stderr).expect("UTF-8")
}

/// A folder with a schema that declares nothing, and these files.
fn files(name: &str, files: &[(&str, &str)]) -> std::path::PathBuf {
    let folder = folder(name);
    fs::write(folder.join("s"), "H,0,0,-,0\n").expect("a schema");
    for (file, text) in files {
        fs::write(folder.join(file), text).expect("a rule");
    }
    folder
}

#[test]
fn the_readme_shows_what_is_printed_for_json() {
    let readme = include_str!("../README.md");
    let blocks = readme.split("```console\n").skip(1);
    let blocks = blocks.filter_map(|block| block.split_once("```"));
    let mut shown = 0;
    let is_rule = |block: &str| !block.contains("pattern.json") && block.contains("json");
    for (block, _) in blocks.filter(|(block, _)| is_rule(block)) {
        let (lines, commands): (Vec<&str>, Vec<&str>) =
            block.lines().partition(|line| !line.starts_with("$ "));
        let last = commands.last().expect("a command");
        let line = last.trim_start_matches("$ entity-rules ");
        let output = run(&mill(), line);
        let printed = String::from_utf8_lossy(&output.stdout).into_owned();
        assert_eq!(printed.lines().collect::<Vec<_>>(), lines);
        shown += 1;
    }
    assert_eq!(shown, 2);
}

#[test]
fn json_and_sheets_are_made_of_one_another() {
    let (status, sheet) = printed(&mill(), "to-sheet release.json");
    assert_eq!(status, Some(0));
    let file = fs::read_to_string(mill().join("release.rule")).expect("a sheet");
    assert_eq!(sheet, file);
    // A book has a line for each rule; what is JSON is made compact.
    let folder = files("json_book", &[("a.json", " {\"assert\" : true } ")]);
    fs::write(
        folder.join("b.book"),
        "14,R,-,-,\nC,1,0,\n14,R,-,-,\nC,1,1,\n",
    )
    .expect("a book");
    let (status, lines) = printed(&folder, "to-json a.json b.book");
    let expected = ["true", "false", "true"].map(|truth| format!("{{\"assert\":{truth}}}\n"));
    assert_eq!((status, lines), (Some(0), expected.concat()));
}

#[test]
fn standard_input_is_json_by_its_first_byte() {
    let mut tool = Command::new(env!("CARGO_BIN_EXE_entity-rules"))
        .args("check pattern.schema - --kind precondition --semantics service/1".split(' '))
        .current_dir(mill())
        .stdin(Stdio::piped())
        .stdout(Stdio::piped())
        .spawn()
        .expect("the tool runs");
    let mut input = tool.stdin.take().expect("an input");
    input.write_all(b"\n {\"assert\": true}").expect("written");
    drop(input);
    let output = tool.wait_with_output().expect("an output");
    let out = String::from_utf8_lossy(&output.stdout);
    assert_eq!(out, "-: accepted, all 4 checks passed\n");
}

#[test]
fn a_defect_is_shown_in_its_line() {
    let folder = files(
        "json_defects",
        &[
            ("name.json", "{\"assert\": true,\n \"name\": \" \"}"),
            (
                "message.json",
                "{\"assert\": true,\n\n \"message\": \"\", \"name\": \"n\"}",
            ),
            (
                "bind.json",
                "{\"assert\": {\"for_all\": {\n  \"in\": \"$id\", \"as\": \"a.b\", \"that\": true}}}",
            ),
            ("empty.json", "{\"assert\": {\"not\": {\"all\": []}}}"),
            (
                "escaped.json",
                "{\"assert\": {\"exists\": \"$\\u0069d\\u002Ex\"}}",
            ),
            (
                "cut.json",
                "{\"assert\":{\"all\":[true,true,true,true,true,true,true,true,true,true,true,true,true,true,true,true,true,true,{\"exists\":\"$fields.x\"}]}}",
            ),
        ],
    );
    for (file, place, at) in [
        ("name", ":2:10", ["\"name\": \" \"}", "        ^^^"]),
        (
            "message",
            ":3:13",
            ["\"message\": \"\", \"name\": \"n\"}", "           ^^"],
        ),
        (
            "bind",
            ":2:22",
            [
                "\"in\": \"$id\", \"as\": \"a.b\", \"that\": true}}}",
                "                   ^^^^^",
            ],
        ),
        (
            "empty",
            ":1:21",
            [
                "{\"assert\": {\"not\": {\"all\": []}}}",
                "                    ^^^^^",
            ],
        ),
        (
            "escaped",
            ":1:32",
            [
                "{\"assert\": {\"exists\": \"$\\u0069d\\u002Ex\"}}",
                "                               ^^^^^^^",
            ],
        ),
        (
            "cut",
            ":1:128",
            [
                "...ue,true,true,true,true,true,true,true,true,true,true,{\"exists\":\"$fields.x\"}]}}",
                "                                                                           ^",
            ],
        ),
    ] {
        let out = check(&folder, &format!("s {file}.json"));
        assert!(
            out.starts_with(&format!("{file}.json{place}: defect ")),
            "{out}"
        );
        let [line, marks] = at;
        let shown = format!("\n  at      {line}\n          {marks}");
        assert!(out.contains(&shown), "{out}\n{shown}");
        assert!(out.contains("\n  sheet   entry "), "{out}");
    }
}

#[test]
fn a_refusal_is_shown_in_its_line() {
    let folder = files(
        "json_refusals",
        &[
            ("shape.json", "{\n  \"assert\": {\"eq\": [1, 2, 3]}\n}\n"),
            ("sheet.json", "R,-,-,\nC,1,1,\n"),
            (
                "deep.rule",
                &format!(
                    "{{\"assert\": {{\"in\": [{}{}, 1]}}}}",
                    "[".repeat(65),
                    "]".repeat(65)
                ),
            ),
            ("bytes.json", "{\"assert\": true, \"name\": \"\u{1b}\"}"),
        ],
    );
    assert_eq!(
        check(&folder, "s shape.json"),
        "shape.json:2:20: refused 31 (JSON form): `eq` takes an array of two values, and this one has 3\n\
         \x20 at      \"assert\": {\"eq\": [1, 2, 3]}\n\
         \x20                          ^\n"
    );
    assert_eq!(
        check(&folder, "s sheet.json"),
        "sheet.json:1:1: refused 31 (JSON form): expected a value\n  at      R,-,-,\n          ^\n"
    );
    assert!(
        check(&folder, "s deep.rule").starts_with(
            "deep.rule:1:84: refused 32 (sheet limit): values nest over 64 deep here\n"
        )
    );
    let out = check(&folder, "s bytes.json");
    assert!(out.contains("\\u{1b}") && !out.contains('\u{1b}'), "{out}");
    // What is converted alone is refused the same way, on standard error.
    let told = complaint(&folder, "to-sheet shape.json");
    assert!(
        told.starts_with("entity-rules: shape.json:2:20: refused 31 (JSON form): "),
        "{told}"
    );
    let told = complaint(&folder, "to-json s");
    assert!(
        told.starts_with("entity-rules: s:1: refused 5 (rule sheet): "),
        "{told}"
    );
    let told = complaint(&folder, "to-sheet missing.json");
    assert!(
        told.contains("unreadable: expected a file that holds a rule in JSON"),
        "{told}"
    );
    assert!(
        complaint(&folder, "to-sheet a.json b.json").contains("to-sheet: expected one file alone")
    );
}

#[test]
fn machines_read_places_in_the_text() {
    let line = check(&mill(), "pattern.schema misspelt.json --json");
    for member in [
        r#""file":"misspelt.json","verdict":"defect","number":18,"#,
        r#""place":5,"over_place":3,"#,
        r#""line":5,"column":74,"end_line":5,"end_column":81,"entry":"string \"$bar.threded\"","#,
        r#""segment":"threded","segment_byte":5,"suggestion":"threaded""#,
    ] {
        assert!(line.contains(member), "{member}: {line}");
    }
    let log = check(&mill(), "pattern.schema misspelt.json --sarif");
    let region = r#""artifactLocation":{"uri":"misspelt.json"},"region":{"startLine":5,"startColumn":74,"endLine":5,"endColumn":81}"#;
    assert!(log.contains(region), "{log}");
    let folder = files("json_machines", &[("a.json", "{\"assert\":\n 7}")]);
    let line = check(&folder, "s a.json --json");
    let expected = "{\"file\":\"a.json\",\"verdict\":\"refused\",\"number\":31,\"word\":\"JSON form\",\
        \"explanation\":\"a condition is `true`, `false` or an object with one operator, not a number\",\
        \"fault_file\":\"a.json\",\"line\":2,\"column\":2,\"byte\":12}\n";
    assert_eq!(line, expected);
    let log = check(&folder, "s a.json --sarif");
    let region = r#""region":{"startLine":2,"startColumn":2,"endLine":2,"endColumn":2}"#;
    assert!(log.contains(region), "{log}");
}

#[test]
fn every_command_takes_json() {
    let same = |line: &str, others: &str| {
        let (left, right) = (run(&mill(), line), run(&mill(), others));
        assert_eq!(left.stdout, right.stdout, "{line}");
        assert_eq!(left.status.code(), right.status.code());
        String::from_utf8(left.stdout).expect("UTF-8")
    };
    let book = same(
        "book release.json misspelt.json",
        "book release.rule misspelt.rule",
    );
    assert!(book.contains(",R,7,26,release"), "{book}");
    same("show release.json", "show release.rule");
    let (_, opened) = printed(
        &mill(),
        &format!("open pattern.schema misspelt.json {SETTINGS}"),
    );
    assert!(
        opened.contains("\n  for     line 5, entry 5, string \"$bar.threded\"\n"),
        "{opened}"
    );
    let (_, upgraded) = printed(
        &mill(),
        &format!("upgrade pattern.schema wider.schema release.json {SETTINGS}"),
    );
    assert!(
        upgraded.contains("release.json: stays accepted by the theorem"),
        "{upgraded}"
    );

    let season =
        "{\"assert\": {\"all\": [\n  true,\n  {\"before\": [\"2024-03-01\", \"2024-09-30\"]}]}}";
    let folder = files("json_folder", &[]);
    fs::create_dir(folder.join("rules")).expect("a folder");
    fs::write(folder.join("rules/a.json"), season).expect("a rule");
    fs::write(folder.join("rules/b.rule"), "R,-,-,\nC,1,1,\n").expect("a rule");
    let out = check(&folder, "s rules --constants");
    assert!(out.contains("rules/a.json: accepted, all 9 checks passed\n  always true: line 3, entry 4, a.assert.all[1]: "), "{out}");
    let (_, tally) = printed(&folder, &format!("tally s rules {SETTINGS}"));
    assert!(
        tally.starts_with("rules: tally of 2 sheets: 2 accepted"),
        "{tally}"
    );
    fs::write(folder.join("rules/rules.list"), "a.json invariant gate\n").expect("a list");
    assert!(check(&folder, "s rules").contains("rules/a.json: accepted"));
}

#[test]
fn the_two_refusals_are_explained() {
    for (number, shown) in [
        (
            31,
            "example.json:3:14: refused 31 (JSON form): there is no operator `exits`; did you mean `exists`?",
        ),
        (
            32,
            "example.json:1:87: refused 32 (sheet limit): values nest over 64 deep here",
        ),
    ] {
        let (status, out) = printed(&mill(), &format!("explain {number}"));
        assert_eq!(status, Some(0));
        assert!(out.contains(shown), "{out}");
    }
}
