//! The tool as people and programs run it.

mod support;

use entity_rules::{Kind, Name, Semantics, Table, check_template};
use std::collections::BTreeSet;
use std::fs;
use std::io::Write;
use std::path::Path;
use std::process::{Command, Stdio};
use support::tool::{folder, mill, printed, run};

const SETTINGS: &str = "--kind precondition --semantics service/1";

fn run_check(folder: &Path, words: &str) -> (Option<i32>, String, String) {
    let output = run(folder, &format!("check {SETTINGS} {words}"));
    let text = |bytes| String::from_utf8(bytes).expect("the tool prints UTF-8");
    (
        output.status.code(),
        text(output.stdout),
        text(output.stderr),
    )
}

#[test]
fn the_readme_shows_what_is_printed() {
    let readme = include_str!("../README.md");
    let (_, example) = readme.split_once("$ entity-rules ").expect("an example");
    let (command, rest) = example.split_once('\n').expect("a command");
    let (shown, _) = rest.split_once("```").expect("the end of the example");
    let output = run(&mill(), command);
    assert_eq!(String::from_utf8_lossy(&output.stdout), shown);
    assert_eq!(output.status.code(), Some(1));
    assert!(output.stderr.is_empty());
}

/// The sheet of a block in which words stand beside the entries.
fn shown_sheet<'a>(blocks: &mut impl Iterator<Item = &'a str>) -> String {
    let block = blocks.next().expect("a block");
    let entries = block.trim_start().lines().map(|line| {
        let (entry, _) = line.split_once("  ").expect("words beside the entry");
        format!("{entry}\n")
    });
    entries.collect()
}

#[test]
fn the_format_shows_two_sheets_that_are_accepted() {
    let folder = folder("shown");
    let format = include_str!("../../docs/FORMAT.md");
    let (_, pair) = format
        .split_once("\n### A pair of sheets\n")
        .expect("a pair");
    let mut blocks = pair.split("```").skip(1).step_by(2);
    fs::write(folder.join("s"), shown_sheet(&mut blocks)).expect("a schema");
    fs::write(folder.join("r"), shown_sheet(&mut blocks)).expect("a rule");
    let (_, out, _) = run_check(&folder, "s r");
    assert_eq!(out, "r: accepted, all 15 checks passed\n");
    assert!(pair.contains("it is accepted with 15 checks passed"));
}

#[test]
fn the_status_tells_the_worst_outcome() {
    let status = |words| run_check(&mill(), words).0;
    assert_eq!(status("pattern.schema release.rule"), Some(0));
    assert_eq!(status("pattern.schema release.rule misspelt.rule"), Some(1));
    assert_eq!(
        status("pattern.schema misspelt.rule pattern.schema"),
        Some(2)
    );
    assert_eq!(status("pattern.schema missing.rule"), Some(2));
    assert_eq!(status("release.rule release.rule"), Some(2));
    assert_eq!(status("missing.schema release.rule"), Some(2));
    assert_eq!(status("pattern.schema"), Some(2));
    assert_eq!(status("pattern.schema release.rule --kind rule"), Some(2));
    assert_eq!(status("--help"), Some(0));
    assert_eq!(status("--version"), Some(0));
}

#[test]
fn one_accepted_rule_is_one_line() {
    let (_, out, err) = run_check(&mill(), "pattern.schema release.rule");
    assert_eq!(
        (out.as_str(), err.as_str()),
        ("release.rule: accepted, all 19 checks passed\n", "")
    );
}

#[test]
fn quiet_is_silent_if_all_are_accepted() {
    let (status, out, _) = run_check(&mill(), "pattern.schema release.rule --quiet");
    assert_eq!((status, out.as_str()), (Some(0), ""));
    let (status, out, _) = run_check(&mill(), "pattern.schema release.rule release.rule --quiet");
    assert_eq!((status, out.as_str()), (Some(0), ""));
    let (_, out, _) = run_check(&mill(), "pattern.schema release.rule misspelt.rule --quiet");
    assert!(out.starts_with("misspelt.rule:5: defect 18"));
    assert!(out.ends_with("2 rules: 1 accepted, 1 with a defect, 0 refused\n"));
}

#[test]
fn a_count_of_one_or_none_is_said_as_such() {
    let folder = folder("counts");
    fs::write(folder.join("s"), "H,0,0,-,0\n").expect("a schema");
    fs::write(folder.join("none"), "T\nV,1,0,\n").expect("a template");
    fs::write(folder.join("one"), "T\nV,5,3,$id\n").expect("a template");
    fs::write(folder.join("second"), "T\nV,6,2,\nV,5,3,$id\nV,5,3,$ix\n").expect("a template");
    let out = |words| run_check(&folder, words).1;
    assert_eq!(
        out("s none"),
        "none: accepted, there was nothing to check\n"
    );
    assert_eq!(out("s one"), "one: accepted, its 1 check passed\n");
    assert!(out("s second").ends_with("  passed  1 check before this one\n"));
}

#[test]
fn the_label_begins_the_path() {
    let (_, out, _) = run_check(&mill(), "pattern.schema misspelt.rule --label gate");
    assert!(out.contains("  path    gate.assert.for_all.that.eq[0]\n"));
    let long = "l".repeat(257);
    let (status, out, _) = run_check(
        &mill(),
        &format!("pattern.schema release.rule --label {long}"),
    );
    assert_eq!(status, Some(2));
    assert!(out.starts_with("release.rule: refused 2 (label): the label is over 256 bytes long"));
}

#[test]
fn refusals_say_what_was_expected_and_where() {
    let folder = folder("refusals");
    let file =
        |name: &str, sheet: &str| fs::write(folder.join(name), sheet).expect("a sheet is written");
    file("good.schema", "H,0,0,-,0\n");
    file("bad.schema", "H,0,1,-,0\nF,13,0,0,0,1,-,a\n");
    file("good.rule", "R,-,-,\nC,1,1,\n");
    file("bad.rule", "R,3,-,a\nb\nC,4,0,\nC,99,0,\n");
    let string = format!("V,5,490,{}\n", "t".repeat(490));
    file("long.rule", &format!("T\nV,6,61,\n{}", string.repeat(61)));
    file("other.rule", &"R".repeat(30_001));
    file("returns.rule", "R,-,-,\r\nC,1,1,\r\n");

    let (status, out, _) = run_check(&folder, "good.schema bad.rule");
    let expected =
        "bad.rule:4: refused 5 (rule sheet): entry 3, byte 19: expected an operator, 1 to 21\n";
    assert_eq!((status, out.as_str()), (Some(2), expected));

    let (_, out, _) = run_check(&folder, "good.schema long.rule");
    let expected = "long.rule:63: refused 5 (rule sheet): entry 63, byte 30000: expected at most 30,000 bytes in the sheet\n";
    assert_eq!(out, expected);

    let (_, out, _) = run_check(&folder, "good.schema other.rule");
    assert!(out.ends_with(": entry 1, byte 1: expected a comma\n"));

    let (_, out, _) = run_check(&folder, "good.schema returns.rule");
    let expected = "returns.rule:1: refused 5 (rule sheet): entry 1, byte 6: \
                    expected the end of the entry, byte 0A alone, not 0D before it\n";
    assert_eq!(out, expected);

    let (status, out, err) = run_check(&folder, "bad.schema good.rule bad.rule");
    assert_eq!((status, err.as_str()), (Some(2), ""));
    assert_eq!(
        out,
        "bad.schema:2: refused 4 (schema sheet): entry 2, byte 12: expected the field's kind, 1 to 12\n\
         2 rules: 0 accepted, 0 with a defect, 0 refused, 2 not checked\n"
    );
}

#[test]
fn unreadable_files_are_named_and_counted_apart() {
    let (status, out, err) = run_check(&mill(), "none.schema release.rule misspelt.rule");
    assert_eq!((status, err.as_str()), (Some(2), ""));
    assert!(
        out.starts_with("none.schema: unreadable: expected a file that holds a schema sheet: ")
    );
    assert!(out.ends_with("\n2 rules: 0 accepted, 0 with a defect, 0 refused, 2 not checked\n"));

    let (_, out, _) = run_check(&mill(), "pattern.schema none.rule pattern.schema");
    assert!(out.starts_with("none.rule: unreadable: expected a file that holds a rule sheet: "));
    assert!(out.ends_with("\n2 rules: 0 accepted, 0 with a defect, 1 refused, 1 unreadable\n"));
}

/// What is printed for a rule that has this text as an instant.
fn string(schema: &str, text: &str, settings: &str) -> String {
    let folder = folder("strings");
    let sheet = format!("R,-,-,\nC,6,0,\nV,5,{},{text}\nV,5,3,$id\n", text.len());
    fs::write(folder.join("s"), schema).expect("a schema");
    fs::write(folder.join("r"), sheet).expect("a rule");
    let output = run(&folder, &format!("check s r {settings}"));
    String::from_utf8(output.stdout).expect("UTF-8")
}

#[test]
fn hints_help_to_mend_a_defect() {
    let none = "H,0,1,-,0\nF,1,0,0,0,1,-,a\n";
    for (text, settings, hint) in [
        (
            "$fields.a",
            "--kind create_selector --semantics service/1",
            Some(
                "the kind create_selector may read $id, $entity, $version, $args, and binds in their bodies",
            ),
        ),
        (
            "$args.a",
            "--kind create_selector --semantics service/1",
            None,
        ),
        ("$state.a", "--kind invariant --semantics service/1", None),
        (
            "$fields.a.count",
            "--kind invariant --semantics kernel/1",
            Some("under kernel/1 only objects and json fields have members"),
        ),
        (
            "$fields.a.b",
            "--kind invariant --semantics service/1",
            None,
        ),
        (
            "2024-01-01T00:00:00+01:00",
            "--kind invariant --semantics kernel/1",
            Some(
                "an instant is YYYY-MM-DD or YYYY-MM-DDTHH:MM:SS, the latter with up to 9 digits after a dot and a Z if wanted; it has no offset",
            ),
        ),
    ] {
        let out = string(none, text, settings);
        let rows: Vec<&str> = out.lines().collect();
        let hints: Vec<&str> = rows
            .iter()
            .filter_map(|row| row.strip_prefix("  hint    "))
            .collect();
        assert_eq!(hints, Vec::from_iter(hint), "{out}");
        let json = string(none, text, &format!("{settings} --json"));
        match hint {
            Some(hint) => assert!(
                json.ends_with(&format!("\"hint\":\"{hint}\"}}\n")),
                "{json}"
            ),
            None => assert!(!json.contains("\"hint\""), "{json}"),
        }
    }
}

#[test]
fn the_names_of_a_kind_are_those_that_it_may_read() {
    let all = Kind::OperationTemplate.names();
    assert_eq!(all.len(), 9);
    for kind in Kind::ALL {
        for name in all.iter().chain(&["", "name", "field"]) {
            let sheet = format!("T\nV,5,{},${name}\n", name.len() + 1);
            let verdict = check_template(
                *kind,
                Semantics::Kernel1,
                "t",
                b"H,0,0,-,0\n",
                sheet.as_bytes(),
            );
            let is_read = verdict.expect("a verdict").is_accepted();
            assert_eq!(is_read, kind.names().contains(name), "{kind} ${name}");
        }
    }
}

fn run_path(folder: &Path, words: &str) -> (Option<i32>, String) {
    printed(folder, &format!("path {words}"))
}

#[test]
fn the_readme_shows_what_is_printed_for_paths() {
    let readme = include_str!("../README.md");
    let (_, example) = readme
        .split_once("$ entity-rules path ")
        .expect("an example");
    let (words, rest) = example.split_once('\n').expect("a command");
    let (shown, _) = rest.split_once("```").expect("the end of the example");
    let (status, out) = run_path(&mill(), words);
    assert_eq!((status, out.as_str()), (Some(1), shown));
}

#[test]
fn paths_are_read_by_the_kernel_unless_said_otherwise() {
    let out = |words: &str| run_path(&mill(), &format!("pattern.schema name.count {words}"));
    let accepted = "name.count: accepted, its 1 check passed\n".to_owned();
    assert_eq!(out("--semantics service/1"), (Some(0), accepted));
    assert_eq!(
        out("--semantics service/1 --quiet"),
        (Some(0), String::new())
    );
    let (status, text) = out("--semantics service/3 --reader projection");
    let told = "a reference cannot be read: a projection cannot read the length of the text `$fields.name`";
    let marks = "  at      name.count\n               ^^^^^\n";
    assert_eq!(status, Some(1));
    let expected = format!("name.count: defect 18 (reference): {told}\n{marks}");
    assert_eq!(text, expected);
    for reader in ["kernel", "projection"] {
        let (status, text) = out(&format!("--semantics kernel/1 --reader {reader}"));
        assert_eq!(status, Some(1));
        assert!(
            text.ends_with(
                "\n  hint    under kernel/1 only objects and json fields have members\n"
            )
        );
    }
}

#[test]
fn the_status_tells_the_worst_outcome_of_paths() {
    let status = |words: &str| run_path(&mill(), &format!("{words} --semantics service/1")).0;
    assert_eq!(status("pattern.schema name bars"), Some(0));
    assert_eq!(status("pattern.schema name nmae"), Some(1));
    let long = "l".repeat(513);
    assert_eq!(status(&format!("pattern.schema nmae {long}")), Some(2));
    assert_eq!(status("release.rule name"), Some(2));
    assert_eq!(status("missing.schema name"), Some(2));
    let usage = run(&mill(), "path pattern.schema name");
    assert_eq!((usage.status.code(), usage.stdout.len()), (Some(2), 0));
    let usage = run(
        &mill(),
        "path pattern.schema name --semantics service/1 --kind invariant",
    );
    assert_eq!(usage.status.code(), Some(2));
}

#[test]
fn refused_paths_and_schemas_are_named() {
    let long = "l".repeat(513);
    let (_, out) = run_path(
        &mill(),
        &format!("pattern.schema name {long} --semantics service/1"),
    );
    let expected = format!(
        "name: accepted, its 1 check passed\n\
         {long}: refused 2 (path): the path is over 512 bytes long, or not UTF-8\n\
         2 paths: 1 accepted, 0 with a defect, 1 refused\n"
    );
    assert_eq!(out, expected);
    let (_, out) = run_path(&mill(), "release.rule name bars --semantics service/1");
    assert_eq!(
        out,
        "release.rule:1: refused 4 (schema sheet): entry 1, byte 0: expected `H`, which begins a schema sheet\n\
         2 paths: 0 accepted, 0 with a defect, 0 refused, 2 not checked\n"
    );
}

#[test]
fn machines_read_json_of_paths() {
    let (status, out) = run_path(
        &mill(),
        "pattern.schema name name.count --semantics service/1 --reader projection --json",
    );
    assert_eq!(status, Some(1));
    assert_eq!(
        out,
        concat!(
            r#"{"key":"name","verdict":"accepted","number":0,"passed":1}"#,
            "\n",
            r#"{"key":"name.count","verdict":"defect","number":18,"word":"reference","explanation":"a reference cannot be read: a projection cannot read the length of the text `$fields.name`","detail":13,"passed":0,"segment":"count","segment_byte":5}"#,
            "\n"
        )
    );
    let (_, out) = run_path(
        &mill(),
        "release.rule name name --semantics service/1 --json",
    );
    assert_eq!(
        out.lines().last(),
        Some(
            r#"{"key":"name","verdict":"refused","number":4,"word":"schema sheet","explanation":"entry 1, byte 0: expected `H`, which begins a schema sheet","fault_file":"release.rule","line":1,"place":1,"byte":0}"#
        )
    );
}

#[test]
fn a_path_that_is_no_text_is_refused() {
    use std::os::unix::ffi::OsStrExt;
    let output = Command::new(env!("CARGO_BIN_EXE_entity-rules"))
        .args(["path", "pattern.schema"])
        .arg(std::ffi::OsStr::from_bytes(b"a\xFF"))
        .args(["--semantics", "service/1"])
        .current_dir(mill())
        .output()
        .expect("the tool runs");
    assert_eq!(output.status.code(), Some(2));
    let out = String::from_utf8(output.stdout).expect("the tool prints UTF-8");
    assert!(out.contains(": refused 2 (path): "), "{out}");
}

fn run_instant(words: &[&str]) -> (Option<i32>, String) {
    let output = Command::new(env!("CARGO_BIN_EXE_entity-rules"))
        .arg("instant")
        .args(words)
        .output()
        .expect("the tool runs");
    let out = String::from_utf8(output.stdout).expect("the tool prints UTF-8");
    (output.status.code(), out)
}

#[test]
fn the_readme_shows_what_is_printed_for_instants() {
    let readme = include_str!("../README.md");
    let (_, example) = readme
        .split_once("$ entity-rules instant ")
        .expect("an example");
    let (words, rest) = example.split_once('\n').expect("a command");
    let (shown, _) = rest.split_once("```").expect("the end of the example");
    let words: Vec<&str> = words.split_whitespace().collect();
    assert_eq!(run_instant(&words), (Some(1), shown.to_owned()));
}

#[test]
fn the_status_tells_whether_all_are_instants() {
    let status = |words: &[&str]| run_instant(words).0;
    assert_eq!(status(&["2024-02-29"]), Some(0));
    assert_eq!(status(&["2024-02-29", " 2024-02-29 12:00:00.5z "]), Some(0));
    assert_eq!(status(&["2024-02-29", "2024-02-30"]), Some(1));
    assert_eq!(status(&[""]), Some(1));
    assert_eq!(status(&[]), Some(2));
    assert_eq!(status(&["2024-02-29", "--label", "x"]), Some(2));
}

#[test]
fn quiet_prints_what_is_no_instant() {
    let all_are = run_instant(&["2024-02-29", "2024-03-01", "--quiet"]);
    assert_eq!(all_are, (Some(0), String::new()));
    let (_, out) = run_instant(&["2024-02-29", "2024-02-30\x1b", "--quiet"]);
    assert!(
        out.starts_with("2024-02-30\\u{1b}: defect 20 (instant): the text is not an instant\n")
    );
    assert!(out.ends_with("\n2 texts: 1 accepted, 1 with a defect, 0 refused\n"));
}

#[test]
fn machines_read_json_of_instants() {
    let (status, out) = run_instant(&["--json", "2024-02-29 23:59:60.000000001", "now"]);
    assert_eq!(status, Some(1));
    assert_eq!(
        out,
        concat!(
            r#"{"text":"2024-02-29 23:59:60.000000001","verdict":"accepted","number":0,"year":2024,"month":2,"day":29,"hour":23,"minute":59,"second":60,"nanoseconds":1}"#,
            "\n",
            r#"{"text":"now","verdict":"defect","number":20,"word":"instant","explanation":"the text is not an instant","hint":"an instant is YYYY-MM-DD or YYYY-MM-DDTHH:MM:SS, the latter with up to 9 digits after a dot and a Z if wanted; it has no offset"}"#,
            "\n"
        )
    );
}

#[test]
fn a_dash_is_standard_input() {
    let mut tool = Command::new(env!("CARGO_BIN_EXE_entity-rules"))
        .args(format!("check {SETTINGS} pattern.schema -").split_whitespace())
        .current_dir(mill())
        .stdin(Stdio::piped())
        .stdout(Stdio::piped())
        .spawn()
        .expect("the tool runs");
    let mut input = tool.stdin.take().expect("standard input");
    input
        .write_all(include_bytes!("../examples/mill/release.rule"))
        .expect("a rule is sent");
    drop(input);
    let output = tool.wait_with_output().expect("the tool ends");
    assert_eq!(
        String::from_utf8_lossy(&output.stdout),
        "-: accepted, all 19 checks passed\n"
    );
}

#[test]
fn machines_read_json() {
    let (status, out, _) = run_check(
        &mill(),
        "pattern.schema release.rule misspelt.rule missing.rule --json",
    );
    let lines: Vec<&str> = out.lines().collect();
    assert_eq!(status, Some(2));
    assert_eq!(
        lines[0],
        r#"{"file":"release.rule","verdict":"accepted","number":0,"passed":19}"#
    );
    assert_eq!(
        lines[1],
        r#"{"file":"misspelt.rule","verdict":"defect","number":18,"word":"reference","explanation":"a reference cannot be read: the closed object `$fields.bars[]` has no property `threded`","message":"'$bar.threded' cannot resolve: '$bar' declares no property 'threded'","family":8,"family_name":"QuantifierBodyScope","detail":3,"place":5,"over_place":3,"passed":8,"path":"misspelt.assert.for_all.that.eq[0]","line":5,"entry":"string \"$bar.threded\"","over_entry":"string \"$fields.bars\"","segment":"threded","segment_byte":5,"suggestion":"threaded"}"#
    );
    assert!(
        lines[2].starts_with(r#"{"file":"missing.rule","verdict":"unreadable","explanation":""#)
    );
    assert_eq!(lines.len(), 3);
}

#[test]
fn json_answers_for_every_rule_even_under_a_bad_schema() {
    let (status, out, _) = run_check(&mill(), "release.rule release.rule misspelt.rule --json");
    assert_eq!(status, Some(2));
    let line = |file: &str| {
        format!(
            r#"{{"file":"{file}","verdict":"refused","number":4,"word":"schema sheet","explanation":"entry 1, byte 0: expected `H`, which begins a schema sheet","fault_file":"release.rule","line":1,"place":1,"byte":0}}"#
        )
    };
    let expected = format!("{}\n{}\n", line("release.rule"), line("misspelt.rule"));
    assert_eq!(out, expected);

    let (status, out, err) = run_check(&mill(), "none.schema release.rule misspelt.rule --json");
    assert_eq!((status, err.as_str()), (Some(2), ""));
    let lines: Vec<&str> = out.lines().collect();
    assert_eq!(lines.len(), 2);
    for (line, file) in lines.iter().zip(["release.rule", "misspelt.rule"]) {
        let start = format!(r#"{{"file":"{file}","verdict":"unreadable","explanation":"expected"#);
        assert!(line.starts_with(&start), "{line}");
        assert!(line.ends_with(r#","fault_file":"none.schema"}"#), "{line}");
    }
}

/// Every key that the tool writes has a row in the README.
#[test]
fn the_readme_has_every_key() {
    let readme = include_str!("../README.md");
    let words = "pattern.schema release.rule misspelt.rule missing.rule pattern.schema --json";
    let (_, rules, _) = run_check(&mill(), words);
    let (_, instants) = run_instant(&["2024-02-29", "2023-02-29", "--json"]);
    let mut keys = BTreeSet::new();
    for line in rules.lines().chain(instants.lines()) {
        for key in line
            .split(['{', ','])
            .filter_map(|part| part.split_once("\":"))
        {
            let key = key.0.trim_start_matches('"');
            assert!(readme.contains(&format!("| `{key}` |")), "{key}");
            keys.insert(key);
        }
    }
    assert_eq!(keys.len(), 30);
}

#[test]
fn what_is_no_terminal_gets_neither_colours_nor_bars() {
    let rules = "misspelt.rule release.rule ".repeat(400);
    let (_, out, err) = run_check(&mill(), &format!("pattern.schema {rules}"));
    assert!(!out.contains('\x1b'));
    assert_eq!(err, "");
    assert!(out.ends_with("800 rules: 400 accepted, 400 with a defect, 0 refused\n"));
}

#[test]
fn sheets_cannot_steer_the_terminal() {
    let folder = folder("steering");
    fs::write(folder.join("s"), "H,0,0,-,0\n").expect("a schema");
    fs::write(folder.join("r"), "T\nV,7,1,\nK,4,\x1b[2J\nV,5,5,$\x1b[2J\n").expect("a template");
    for words in ["s r", "s r --json"] {
        let (status, out, _) = run_check(&folder, words);
        assert_eq!(status, Some(1));
        assert!(!out.contains('\x1b'), "{out:?}");
    }
}

#[test]
fn the_readme_shows_what_is_printed_under_a_table() {
    let readme = include_str!("../README.md");
    let examples = readme.split("$ entity-rules ").skip(1);
    let example = examples
        .filter(|example| example.contains("--table"))
        .last()
        .expect("an example");
    let (words, rest) = example.split_once('\n').expect("a command");
    let (shown, _) = rest.split_once("```").expect("the end of the example");
    let output = run(&mill(), words);
    assert_eq!(String::from_utf8_lossy(&output.stdout), shown);
    assert_eq!(output.status.code(), Some(0));
}

#[test]
fn the_stock_table_is_printed_to_start_from() {
    let folder = folder("stock");
    let output = run(&folder, "table");
    assert_eq!(output.status.code(), Some(0));
    assert_eq!(output.stdout, Table::stock().sheet().expect("a table"));
    fs::write(folder.join("t"), &output.stdout).expect("a table");
    fs::write(folder.join("s"), "H,0,0,-,0\n").expect("a schema");
    fs::write(folder.join("r"), "T\nV,5,6,$state\n").expect("a template");
    for kind in Kind::ALL {
        let settings = format!("check s r --kind {kind} --semantics service/1");
        let without = run(&folder, &settings);
        let with = run(&folder, &format!("{settings} --table t"));
        assert_eq!(without.stdout, with.stdout);
        assert_eq!(without.status.code(), with.status.code());
    }
    let usage = run(&folder, "table s");
    assert_eq!((usage.status.code(), usage.stdout.len()), (Some(2), 0));
}

#[test]
fn hints_say_what_the_table_shows() {
    let folder = folder("shown_names");
    let kind = Kind::Invariant;
    let table = Table::stock()
        .hide(kind, Name::State)
        .show(kind, Name::Args);
    fs::write(folder.join("t"), table.sheet().expect("a table")).expect("a table");
    fs::write(folder.join("s"), "H,0,0,-,0\n").expect("a schema");
    fs::write(folder.join("r"), "T\nV,5,6,$state\n").expect("a template");
    let output = run(
        &folder,
        "check s r --table t --kind invariant --semantics kernel/1",
    );
    let out = String::from_utf8_lossy(&output.stdout);
    let hint = "  hint    the kind invariant may read $id, $entity, $version, $fields, $args, and binds in their bodies\n";
    assert!(out.contains(hint), "{out}");
}

#[test]
fn a_refused_table_is_told_by_row_and_mark() {
    let folder = folder("tables");
    let stock = Table::stock().sheet().expect("a table");
    let file = |name: &str, sheet: &[u8]| fs::write(folder.join(name), sheet).expect("a file");
    file("s", b"H,0,0,-,0\n");
    file("r", b"T\nV,5,6,$state\n");
    file("cut", &stock[..100]);
    file("long", &[&stock[..], b"\n"].concat());
    let mut mark = stock.clone();
    mark[22 + 6] = b'2';
    file("mark", &mark);
    mark[22 + 6] = b'0';
    file("entity", &mark);
    let mut old = stock.clone();
    old[5 * 22 + 20] = b'1';
    file("old", &old);
    for (table, told) in [
        (
            "cut",
            "cut:5: refused 37 (table form): entry 5, byte 100: expected the mark of $state for outcome_selector, 0 or 1\n",
        ),
        (
            "long",
            "long:9: refused 37 (table form): entry 9, byte 176: expected the end of the sheet\n",
        ),
        (
            "mark",
            "mark:2: refused 37 (table form): entry 2, byte 28: expected the mark of $entity for precondition, 0 or 1\n",
        ),
        (
            "entity",
            "entity:2: refused 38 (table mark): entry 2, byte 28: expected 1, the mark of $entity for precondition, since every kind reads it\n",
        ),
        (
            "old",
            "old:6: refused 38 (table mark): entry 6, byte 130: expected 0, the mark of $old_fields for create_selector, since it does not read $fields\n",
        ),
        (
            "s",
            "s:1: refused 37 (table form): entry 1, byte 0: expected `N`, which begins the row of invariant\n",
        ),
    ] {
        let (status, out, err) = run_check(&folder, &format!("s r --table {table}"));
        assert_eq!(
            (status, out.as_str(), err.as_str()),
            (Some(2), told, ""),
            "{table}"
        );
    }
    // It is reported once for all rules, and in JSON for each.
    let (_, out, _) = run_check(&folder, "s r r --table old");
    assert!(out.ends_with("2 rules: 0 accepted, 0 with a defect, 0 refused, 2 not checked\n"));
    assert_eq!(out.lines().count(), 2);
    let (status, out, _) = run_check(&folder, "s r r --table old --json");
    assert_eq!((status, out.lines().count()), (Some(2), 2));
    assert!(out.starts_with(r#"{"file":"r","verdict":"refused","number":38,"word":"table mark","explanation":"entry 6, byte 130: expected 0, "#));
    assert!(out.ends_with(concat!(
        r#","fault_file":"old","line":6,"place":6,"byte":130}"#,
        "\n"
    )));
    let (status, out, _) = run_check(&folder, "s r --table none");
    assert_eq!(status, Some(2));
    assert!(out.starts_with("none: unreadable: expected a file that holds a name table: "));
}

#[test]
fn the_readme_shows_what_is_printed_for_two_schemas() {
    let readme = include_str!("../README.md");
    let commands = ["$ entity-rules widens ", "$ entity-rules upgrade "];
    let mut count = 0;
    for block in readme.split("```console\n").skip(1) {
        if !commands.iter().any(|command| block.starts_with(command)) {
            continue;
        }
        let (command, rest) = block.split_once('\n').expect("a command");
        let (shown, _) = rest.split_once("```").expect("the end of the example");
        let line = command.trim_start_matches("$ entity-rules ");
        let (status, out) = printed(&mill(), line);
        assert_eq!(out, shown);
        assert_eq!(
            status == Some(0),
            !shown.contains("changed") && !shown.contains("not a widening")
        );
        count += 1;
    }
    assert_eq!(count, 4);
}

#[test]
fn the_status_tells_a_widening() {
    let status = |words: &str| printed(&mill(), &format!("widens {words}")).0;
    assert_eq!(status("pattern.schema wider.schema"), Some(0));
    assert_eq!(status("pattern.schema pattern.schema"), Some(0));
    assert_eq!(status("wider.schema pattern.schema"), Some(1));
    assert_eq!(status("wider.schema release.rule"), Some(2));
    assert_eq!(status("missing wider.schema"), Some(2));
    assert_eq!(run(&mill(), "widens pattern.schema").status.code(), Some(2));
}

#[test]
fn the_status_tells_a_change() {
    let status = |words: &str| printed(&mill(), &format!("upgrade {words} {SETTINGS}")).0;
    let (wider, narrower) = ("pattern.schema wider.schema", "wider.schema pattern.schema");
    assert_eq!(
        status(&format!("{wider} release.rule misspelt.rule")),
        Some(0)
    );
    assert_eq!(status(&format!("{wider} release.rule fits.rule")), Some(1));
    assert_eq!(
        status(&format!("{narrower} release.rule misspelt.rule")),
        Some(0)
    );
    assert_eq!(
        status(&format!("{narrower} release.rule fits.rule")),
        Some(1)
    );
    assert_eq!(status(&format!("{wider} fits.rule wider.schema")), Some(2));
    assert_eq!(status(&format!("{wider} missing.rule")), Some(2));
    assert_eq!(status("pattern.schema release.rule release.rule"), Some(2));
    assert_eq!(status("missing pattern.schema release.rule"), Some(2));
    assert_eq!(
        status(&format!("{wider} release.rule --table release.rule")),
        Some(2)
    );
}

#[test]
fn a_widening_is_told_quietly_or_not() {
    let out = |words: &str| printed(&mill(), words).1;
    assert_eq!(
        out("widens pattern.schema pattern.schema"),
        "pattern.schema: widening of pattern.schema: nothing differs\n"
    );
    assert_eq!(out("widens pattern.schema wider.schema --quiet"), "");
    let none = out("widens wider.schema pattern.schema --quiet");
    assert_eq!(none, out("widens wider.schema pattern.schema"));
    let upgrade = format!("upgrade pattern.schema wider.schema release.rule {SETTINGS} --quiet");
    assert_eq!(out(&upgrade), "");
    assert_eq!(out(&format!("{upgrade} misspelt.rule")), "");
    let changed = out(&format!("{upgrade} fits.rule"));
    assert!(
        changed
            .starts_with("fits.rule: changed\n  under pattern.schema\n    fits.rule:3: defect 18")
    );
    assert!(changed.ends_with("2 rules: 1 stay accepted, 0 as before, 1 changed\n"));
}

#[test]
fn breaches_are_told_with_their_lines_and_paths() {
    let folder = folder("breaches");
    let file = |name: &str, sheet: &str| fs::write(folder.join(name), sheet).expect("a sheet");
    file(
        "old",
        "H,1,2,0,1\nF,6,0,0,0,3,-,a\nb\nF,6,1,1,0,1,-,c\nF,11,0,0,0,0,0,\nF,1,0,0,0,1,-,x\n",
    );
    for (new, told) in [
        (
            "H,1,2,-,0\nF,6,0,0,0,3,-,a\nb\nF,6,1,1,0,1,-,c\nF,11,0,0,0,0,0,\n",
            "reason 7: the arguments are taken away\n  old     old:1: entry 1, $args: closed, with 1 field\n  new     none\n",
        ),
        (
            "H,0,0,-,0\n",
            "reason 5: an open mark has gone from 1 to 0\n  old     old:1: entry 1, $fields: open, with 2 fields\n  new     new:1: entry 1, $fields: closed, with 0 fields\n",
        ),
        (
            "H,1,1,0,0\nF,6,0,0,0,1,-,a\n",
            "reason 6: a field is added where the old schema is open\n  old     none\n  new     new:2: entry 2, $fields.a: array\n  hint    paths of that name were not checked before, and would now be checked against the field\n",
        ),
        (
            "H,1,1,0,0\nF,8,0,0,0,3,-,a\nb\n",
            "reason 2: the kind of a field differs\n  old     old:2: entry 2, $fields.\"a\\nb\": array\n  new     new:2: entry 2, $fields.\"a\\nb\": json\n  hint    a quantifier over the field would fail, now that it is json\n",
        ),
        (
            "H,1,1,0,0\nF,6,0,1,0,3,-,a\nb\nF,1,0,0,0,0,-,\n",
            "reason 3: a field has an element in only one of the two\n  old     old:2: entry 2, $fields.\"a\\nb\": array\n  new     new:2: entry 2, $fields.\"a\\nb\": array, with an element\n  hint    paths through the elements were not checked before, and would now be checked against the element\n",
        ),
        (
            "H,1,2,0,0\nF,6,0,0,0,3,-,a\nb\nF,6,1,1,0,1,-,c\nF,11,0,0,0,0,-,\n",
            "reason 4: the tag of a field differs\n  old     old:5: entry 4, $fields.c[]: union, tag \"\"\n  new     new:5: entry 4, $fields.c[]: union\n",
        ),
        (
            "H,1,2,0,0\nF,6,0,0,0,3,-,a\nb\nF,6,1,1,0,1,-,c\nF,11,0,0,0,0,0,\n",
            "reason 1: a field is missing\n  old     old:6: entry 5, $args.x: string\n  new     none\n",
        ),
    ] {
        file("new", new);
        let (status, out) = printed(&folder, "widens old new");
        assert_eq!(status, Some(1));
        assert_eq!(out, format!("new: not a widening of old, {told}"));
    }
}

#[test]
fn machines_read_json_of_two_schemas() {
    let (status, out) = printed(&mill(), "widens pattern.schema wider.schema --json");
    assert_eq!(status, Some(0));
    let widening = concat!(
        r#"{"old":"pattern.schema","new":"wider.schema","verdict":"widening","number":0,"answer":2,"grown":["#,
        r#"{"what":"opened","place":1,"line":1,"path":"$args","entry":"open, with 2 fields","old_place":1,"old_line":1},"#,
        r#"{"what":"added","place":5,"line":5,"path":"$fields.bars[].tension","entry":"number"},"#,
        r#"{"what":"added","place":8,"line":8,"path":"$fields.loom","entry":"object"}]}"#,
        "\n"
    );
    assert_eq!(out, widening);
    let (_, out) = printed(&mill(), "widens wider.schema pattern.schema --json");
    assert_eq!(
        out,
        concat!(
            r#"{"old":"wider.schema","new":"pattern.schema","verdict":"none","number":0,"answer":3,"reason":5,"word":"MarkCloses","explanation":"an open mark has gone from 1 to 0","#,
            r#""old_place":1,"old_line":1,"old_path":"$args","old_entry":"open, with 2 fields","new_place":1,"new_line":1,"new_path":"$args","new_entry":"closed, with 2 fields"}"#,
            "\n"
        )
    );
    let (status, out) = printed(&mill(), "widens pattern.schema release.rule --json");
    assert_eq!(status, Some(2));
    assert_eq!(
        out,
        concat!(
            r#"{"old":"pattern.schema","new":"release.rule","verdict":"refused","number":4,"word":"schema sheet","explanation":"entry 1, byte 0: expected `H`, which begins a schema sheet","fault_file":"release.rule","line":1,"place":1,"byte":0}"#,
            "\n"
        )
    );
    let words = "upgrade pattern.schema wider.schema release.rule fits.rule missing.rule --json";
    let (status, out) = printed(&mill(), &format!("{words} {SETTINGS}"));
    assert_eq!(status, Some(2));
    let lines = concat!(
        r#"{"file":"release.rule","change":"stays","old":{"verdict":"accepted","number":0,"passed":19}}"#,
        "\n",
        r#"{"file":"fits.rule","change":"changed","old":{"verdict":"defect","number":18,"#
    );
    assert!(out.starts_with(&format!("{widening}{lines}")), "{out}");
    assert!(out.contains(r#"},"new":{"verdict":"accepted","number":0,"passed":6}}"#));
    assert!(out.contains(r#"{"file":"missing.rule","verdict":"unreadable","#));
}

/// The field that refuses is of another kind, and so the message is another; number, detail, place and path are not.
#[test]
fn an_answer_is_as_before_whatever_is_said_of_it() {
    let folder = folder("said");
    for (file, kind) in [("o", 2), ("n", 4)] {
        let schema = format!("H,0,1,-,0\nF,{kind},0,0,0,1,-,a\n");
        fs::write(folder.join(file), schema).expect("a schema");
    }
    fs::write(folder.join("r"), "R,-,-,\nC,5,0,\nV,5,11,$fields.a.x\n").expect("a rule");
    for (schema, kind) in [("o", "integer"), ("n", "boolean")] {
        let (_, out, _) = run_check(&folder, &format!("{schema} r"));
        let told = format!("'a' is a {kind} field, so 'x' resolves to nothing");
        let row = format!("\n  message '$fields.a.x' cannot resolve: {told}\n");
        assert!(out.contains(&row), "{out}");
    }
    let (_, out) = printed(&folder, &format!("upgrade o n r {SETTINGS}"));
    assert!(out.contains("\nr: as before\n"), "{out}");
}

/// A blank bind has an empty message, which has no row; a message is printed so that it steers no terminal.
#[test]
fn messages_are_printed_for_a_terminal() {
    let folder = folder("terminal");
    fs::write(folder.join("s"), "H,0,0,-,0\n").expect("a schema");
    fs::write(folder.join("r"), "R,-,-,\nC,20,0,\nV,1,0,\nC,1,1,\n").expect("a rule");
    fs::write(folder.join("t"), "T\nV,5,9,$fields.\x1b\n").expect("a template");
    let (_, out, _) = run_check(&folder, "s r t");
    assert!(!out.contains("message \n"));
    let row = "\n  message '$fields.\\u{1b}' cannot resolve: unknown field '\\u{1b}'\n";
    assert!(out.contains(row), "{out}");
}

#[test]
fn any_one_file_of_an_upgrade_is_standard_input() {
    let words = ["pattern.schema", "wider.schema", "fits.rule"];
    let (_, expected) = printed(
        &mill(),
        &format!("upgrade {} {SETTINGS} --label r", words.join(" ")),
    );
    for at in 0..words.len() {
        let mut given = words;
        given[at] = "-";
        let mut tool = Command::new(env!("CARGO_BIN_EXE_entity-rules"))
            .arg("upgrade")
            .args(given)
            .args(SETTINGS.split(' '))
            .args(["--label", "r"])
            .current_dir(mill())
            .stdin(Stdio::piped())
            .stdout(Stdio::piped())
            .spawn()
            .expect("the tool runs");
        let sheet = fs::read(mill().join(words[at])).expect("a sheet");
        let mut input = tool.stdin.take().expect("its input");
        input.write_all(&sheet).expect("its input is read");
        drop(input);
        let output = tool.wait_with_output().expect("it ends");
        let out = String::from_utf8_lossy(&output.stdout);
        assert_eq!(out, expected.replace(words[at], "-"));
        assert_eq!(output.status.code(), Some(1));
    }
}

#[test]
fn bad_usage_goes_to_standard_error() {
    let (status, out, err) = run_check(&mill(), "pattern.schema release.rule --sematics kernel/1");
    assert_eq!((status, out.as_str()), (Some(2), ""));
    let expected = "entity-rules: unknown option \"--sematics\"; did you mean `--semantics`?\nTry `entity-rules --help`.\n";
    assert_eq!(err, expected);
}

#[test]
fn the_readme_shows_a_tree() {
    let readme = include_str!("../README.md");
    let (_, example) = readme
        .split_once("$ entity-rules show ")
        .expect("an example");
    let (words, rest) = example.split_once('\n').expect("a command");
    let (shown, _) = rest.split_once("```").expect("the end of the example");
    let output = run(&mill(), &format!("show {words}"));
    assert_eq!(String::from_utf8_lossy(&output.stdout), shown);
    let output = run(&mill(), "show release.rule sheets.rs none");
    let out = String::from_utf8_lossy(&output.stdout).into_owned();
    assert_eq!(output.status.code(), Some(2));
    assert!(out.starts_with("release.rule\n 1  rule"));
    assert!(out.contains("\nsheets.rs:1: refused 5 (rule sheet): "));
    assert!(out.contains("\nnone: unreadable: expected a file that holds a sheet: "));
    assert_eq!(run(&mill(), "show").status.code(), Some(2));
}

#[test]
fn the_readme_shows_what_is_printed_for_constants() {
    let readme = include_str!("../README.md");
    let (before, rest) = readme
        .split_once(" --constants\n")
        .expect("an example of constants");
    let (_, words) = before.rsplit_once("$ entity-rules ").expect("a command");
    let (shown, _) = rest.split_once("```").expect("the end of the example");
    let output = run(&mill(), &format!("{words} --constants"));
    assert_eq!(String::from_utf8_lossy(&output.stdout), shown);
    assert_eq!(output.status.code(), Some(0));
}

#[test]
fn constants_are_told_where_they_are_asked_for() {
    let (_, out, _) = run_check(&mill(), "pattern.schema season.rule");
    assert_eq!(out.lines().count(), 1);
    let (_, out, _) = run_check(&mill(), "pattern.schema release.rule --constants");
    assert_eq!(out, "release.rule: accepted, all 19 checks passed\n");
    let all = "pattern.schema release.rule season.rule --constants";
    let (_, out, _) = run_check(&mill(), &format!("{all} --quiet"));
    assert!(out.starts_with("season.rule: accepted"), "{out}");
    let (_, out, _) = run_check(&mill(), &format!("{all} --json"));
    let line = out.lines().next_back().expect("a line");
    assert_eq!(
        line,
        r#"{"file":"season.rule","verdict":"accepted","number":0,"passed":12,"constants":[{"holds":true,"place":6,"line":6,"path":"season.assert.all[1]","entry":"\"2024-03-01\" before \"2024-09-30T12:00:00Z\""}]}"#
    );
    let first = out.lines().next().expect("a line");
    assert!(
        first.ends_with("\"passed\":19,\"constants\":[]}"),
        "{first}"
    );
    for command in ["upgrade o n r", "path s p", "widens o n", "instant t"] {
        let output = run(&mill(), &format!("{command} --constants"));
        assert_eq!(output.status.code(), Some(2));
        let error = String::from_utf8_lossy(&output.stderr);
        assert!(
            error.contains("--constants is not an option of this command"),
            "{error}"
        );
    }
}
