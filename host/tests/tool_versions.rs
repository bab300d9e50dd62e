//! `upgrade` of a definition by its next version.

mod support;

use std::fs;
use std::path::{Path, PathBuf};
use support::tool::{folder, mill, printed, run};

const COMMAND: &str = "upgrade old.json new.json";

/// A folder with two definitions, each of which has these members beside the least.
fn versions(name: &str, old: &str, new: &str) -> PathBuf {
    let folder = folder(name);
    for (file, members) in [("old.json", old), ("new.json", new)] {
        let around = r#""entity":"e","lifecycle":{"initial":"s","states":["s"]}"#;
        fs::write(folder.join(file), format!("{{{around},{members}}}")).expect("a definition");
    }
    folder
}

const OF_STRING: &str = r#""schema":{"fields":{"t":{"type":"string"}}}"#;
const OF_TWO: &str = r#""schema":{"fields":{"t":{"type":"string"},"u":{"type":"string"}}}"#;
const ASKS_T: &str = r#""invariants":[{"assert":{"exists":"$fields.t"}}]"#;
const ASKS_U: &str = r#""invariants":[{"assert":{"exists":"$fields.u"}}]"#;

#[test]
fn the_readme_shows_what_is_printed() {
    let (status, out) = printed(&mill(), "upgrade pattern.json pattern-wide.json");
    assert_eq!(status, Some(0));
    for text in [
        include_str!("../../README.md"),
        include_str!("../../docs/DEFINITIONS.md"),
    ] {
        let command = "$ entity-rules upgrade pattern.json pattern-wide.json\n";
        let (_, shown) = text.split_once(command).expect("the command");
        let (shown, _) = shown.split_once("```").expect("the end of the example");
        assert_eq!(out, shown);
    }
}

#[test]
fn what_is_unchanged_under_a_widening_is_not_checked_again() {
    let folder = versions(
        "versions-stay",
        &format!("{OF_STRING},{ASKS_T}"),
        &format!("{OF_TWO},{ASKS_T}"),
    );
    let (status, out) = printed(&folder, COMMAND);
    assert_eq!(status, Some(0));
    assert_eq!(
        out,
        "e: from version 1, kernel/1 to version 1, kernel/1: 2 of 2 schemas are widenings\n\
         1 place stays accepted by the theorem and is not checked again\n"
    );
    assert_eq!(
        printed(&folder, &format!("{COMMAND} --quiet")),
        (Some(0), String::new())
    );
    let (_, out) = printed(&folder, &format!("{COMMAND} --json"));
    assert!(
        out.ends_with("\"change\":\"stays\",\"reason\":\"\"}\n"),
        "{out}"
    );
    assert!(
        out.starts_with("{\"schema\":\"schema\",\"widens\":true,\"reason\":\"\"}\n"),
        "{out}"
    );
}

#[test]
fn what_got_worse_is_told_with_its_defect() {
    let folder = versions(
        "versions-worse",
        &format!("{OF_TWO},{ASKS_U}"),
        &format!("{OF_STRING},{ASKS_U}"),
    );
    for options in ["", " --fail-on worse"] {
        let (status, out) = printed(&folder, &format!("{COMMAND}{options}"));
        assert_eq!(status, Some(1));
        assert!(
            out.starts_with("new.json: not a widening: schema: a field is missing: `$fields.u`\n"),
            "{out}"
        );
        assert!(out.contains("invariants[0]: worse: a defect, and was accepted (the schema is not a widening: a field is missing: `$fields.u`)\n  new.json:1:"), "{out}");
        assert!(
            out.contains("message '$fields.u' cannot resolve: unknown field 'u'"),
            "{out}"
        );
        assert!(
            out.ends_with(
                "0 places stay accepted by the theorem and are not checked again, 1 worse\n"
            ),
            "{out}"
        );
    }
}

#[test]
fn what_got_better_counts_unless_only_worse_does() {
    let folder = versions(
        "versions-better",
        &format!("{OF_STRING},{ASKS_U}"),
        &format!("{OF_TWO},{ASKS_U}"),
    );
    let (status, out) = printed(&folder, COMMAND);
    assert_eq!(status, Some(1));
    assert!(
        out.contains("invariants[0]: better: accepted, and was not\n"),
        "{out}"
    );
    let (status, _) = printed(&folder, &format!("{COMMAND} --fail-on worse"));
    assert_eq!(status, Some(0));
}

#[test]
fn places_come_and_go_and_change() {
    let old = r#""operations":{"o":{"preconditions":[{"assert":true},{"assert":false}],"set":{"t":"$x"}},"p":{"set":{"t":1}}}"#;
    let new = r#""operations":{"o":{"preconditions":[{"assert":false},{"assert":{"not":true}},{"assert":{"exists":"$y"}}],"set":{"t":"$x"}}}"#;
    let folder = versions(
        "versions-places",
        &format!("{OF_STRING},{old}"),
        &format!("{OF_STRING},{new}"),
    );
    let (status, out) = printed(&folder, COMMAND);
    assert_eq!(status, Some(1));
    let told = |label: &str, fate: &str| {
        let told = format!("operations.{label}: {fate}");
        assert!(out.contains(&told), "{told}\n{out}");
    };
    // By its sheet the second rule is the first one now, and the other one is gone.
    told("o.preconditions[1]", "new, accepted");
    told("o.preconditions[2]", "new, with a defect\n  new.json:1:");
    told("o.preconditions[0]", "gone\n");
    told("o.set.t", "a defect as before\n");
    told("p.set.t", "gone\n");
    assert!(out.ends_with("1 place stays accepted by the theorem and is not checked again, 1 with a defect as before, 1 new, 1 new with a defect, 2 gone\n"), "{out}");
}

#[test]
fn from_kernel_1_rules_move_by_the_theorem_and_keys_do_not() {
    let rules = |number: &str| {
        format!(
            r#"{OF_STRING},"invariants":[{{"assert":{{"eq":["$fields.t",{number}]}}}}],"projections":{{"p":{{"key":"$fields.t"}}}}"#
        )
    };
    let moved = |name: &str, number: &str, from: &str, to: &str| {
        let semantics = |name: &str| format!(r#"{},"semantics":"{name}""#, rules(number));
        let folder = versions(name, &semantics(from), &semantics(to));
        printed(&folder, &format!("{COMMAND} --json"))
    };
    let (status, out) = moved("versions-moved", "1", "kernel/1", "service/2");
    assert_eq!(status, Some(0));
    assert!(out.contains("\"change\":\"stays\""), "{out}");
    assert!(
        out.contains("\"change\":\"still\",\"reason\":\"the semantics change, and"),
        "{out}"
    );
    let (status, out) = moved("versions-infinite", "1e999", "kernel/1", "service/1");
    assert_eq!(status, Some(1));
    assert!(out.contains("\"change\":\"worse\",\"reason\":\"a number is not finite, and service/1 asks for that\""), "{out}");
    let (status, out) = moved("versions-back", "1", "service/1", "kernel/1");
    assert_eq!(status, Some(0));
    assert_eq!(
        out.matches("the semantics change from service/1 to kernel/1")
            .count(),
        2,
        "{out}"
    );
}

#[test]
fn what_cannot_be_read_or_checked_has_status_2() {
    let folder = versions("versions-refused", OF_STRING, r#""shema":{}"#);
    let (status, out) = printed(&folder, COMMAND);
    assert_eq!(status, Some(2));
    assert!(out.starts_with("new.json:1:"), "{out}");
    assert!(
        out.contains(
            "not a definition: a definition has no member \"shema\"; did you mean `schema`?"
        ),
        "{out}"
    );
    let long = format!(
        r#"{OF_STRING},"invariants":[{{"assert":{{"exists":"{}"}}}}]"#,
        "l".repeat(600)
    );
    let folder = versions("versions-limit", &long, &long);
    let (status, out) = printed(&folder, COMMAND);
    assert_eq!(status, Some(2));
    assert!(out.contains("invariants[0]: not checked\n"), "{out}");
    for (words, told) in [
        (
            "upgrade a b --fail-on better",
            "--fail-on: expected worse, not \"better\"",
        ),
        (
            "check a b --fail-on worse",
            "check: --fail-on is not an option of this command",
        ),
        (
            "upgrade a b --table t",
            "upgrade of definitions: --table is not an option of this command",
        ),
    ] {
        let error = run(Path::new("."), words).stderr;
        let error = String::from_utf8_lossy(&error).into_owned();
        assert!(error.contains(told), "{error}");
    }
}
