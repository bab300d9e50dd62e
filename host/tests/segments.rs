//! Defects in references, as the tool shows them: the segment at fault, and what was likely meant.

use std::fs;
use std::path::{Path, PathBuf};
use std::process::Command;

/// `id` integer, `bars` array of objects (`threaded`, `turns` array of integers), `map` map, `name` string, `o` object (`p`, an open object), `u` union
/// with the tag `kind`; the arguments `by` and `on`.
const SCHEMA: &str = "H,0,6,0,2\n\
    F,6,0,1,0,4,-,bars\nF,7,0,0,2,0,-,\nF,4,0,0,0,8,-,threaded\nF,6,0,1,0,5,-,turns\nF,2,0,0,0,0,-,\n\
    F,2,0,0,0,2,-,id\nF,10,0,0,0,3,-,map\nF,1,0,0,0,4,-,name\n\
    F,7,0,0,1,1,-,o\nF,7,1,0,0,1,-,p\nF,11,0,0,0,1,4,ukind\n\
    F,1,0,0,0,2,-,by\nF,1,0,0,0,2,-,on\n";

/// A folder of its own for a test, empty at the start.
fn folder(name: &str) -> PathBuf {
    let folder = Path::new(env!("CARGO_TARGET_TMPDIR")).join(name);
    let _ = fs::remove_dir_all(&folder);
    fs::create_dir_all(&folder).expect("a folder");
    folder
}

/// What the tool prints.
fn run(folder: &Path, line: &str) -> String {
    let output = Command::new(env!("CARGO_BIN_EXE_entity-rules"))
        .args(line.split_whitespace())
        .current_dir(folder)
        .output()
        .expect("the tool runs");
    assert!(output.stderr.is_empty(), "{output:?}");
    String::from_utf8(output.stdout).expect("UTF-8")
}

/// The text in the bodies of `bar` over the bars and `turn` over its turns.
fn rule(text: &str) -> String {
    format!(
        "R,-,-,\nC,20,3,bar\nV,5,12,$fields.bars\nC,21,4,turn\nV,5,10,$bar.turns\nC,19,0,\nV,5,{},{text}\n",
        text.len()
    )
}

/// The line of JSON for each text, as a rule of that kind.
fn checked(name: &str, schema: &str, kind: &str, texts: &[&str]) -> Vec<String> {
    let folder = folder(name);
    fs::write(folder.join("s"), schema).expect("a schema");
    let mut line = format!("check s --json --semantics service/1 --kind {kind}");
    for (number, text) in texts.iter().enumerate() {
        fs::write(folder.join(format!("r{number}")), rule(text)).expect("a rule");
        line.push_str(&format!(" r{number}"));
    }
    run(&folder, &line).lines().map(str::to_owned).collect()
}

/// A case: the text, where its segment begins, the segment, what is said of it, and what was meant.
type Case = (
    &'static str,
    usize,
    &'static str,
    &'static str,
    Option<&'static str>,
);

fn hold(name: &str, schema: &str, kind: &str, cases: &[Case]) {
    let texts: Vec<&str> = cases.iter().map(|case| case.0).collect();
    let lines = checked(name, schema, kind, &texts);
    assert_eq!(lines.len(), cases.len());
    for ((text, byte, segment, what, meant), line) in cases.iter().zip(lines) {
        let told = format!("\"explanation\":\"a reference cannot be read: {what}\"");
        assert!(line.contains(&told), "{text}: {line}");
        let place = format!("\"segment\":\"{segment}\",\"segment_byte\":{byte}");
        assert!(line.contains(&place), "{text}: {line}");
        match meant {
            Some(meant) => {
                let suggestion = format!("\"suggestion\":\"{meant}\"");
                assert!(line.contains(&suggestion), "{text}: {line}");
            }
            None => assert!(!line.contains("\"suggestion\""), "{text}: {line}"),
        }
    }
}

#[test]
fn segments_of_paths_are_named() {
    let threded = "the closed object `$fields.bars[]` has no property `threded`";
    let cases: &[Case] = &[
        ("$fields.", 8, "", "a segment of the path is empty", None),
        ("$fields.o.", 10, "", "a segment of the path is empty", None),
        (
            "$fields.nmae",
            8,
            "nmae",
            "the record has no field `nmae` and is closed",
            Some("name"),
        ),
        (
            "$old_fields.NAME.count",
            12,
            "NAME",
            "the record has no field `NAME` and is closed",
            Some("name"),
        ),
        (
            "$args.bye",
            6,
            "bye",
            "the arguments have no field `bye` and are closed",
            Some("by"),
        ),
        (
            "$args.loom",
            6,
            "loom",
            "the arguments have no field `loom` and are closed",
            None,
        ),
        ("$bar.threded", 5, "threded", threded, Some("threaded")),
        (
            "$fields.bars.0.threded.x",
            15,
            "threded",
            threded,
            Some("threaded"),
        ),
        (
            "$fields.o.q",
            10,
            "q",
            "the closed object `$fields.o` has no property `q`",
            Some("p"),
        ),
        (
            "$fields.bars.cout",
            13,
            "cout",
            "the array `$fields.bars` has no member `cout`",
            Some("count"),
        ),
        (
            "$fields.bars.threaded",
            13,
            "threaded",
            "the array `$fields.bars` has no member `threaded`",
            Some("0.threaded"),
        ),
        (
            "$fields.bars.01",
            13,
            "01",
            "the array `$fields.bars` has no member `01`",
            None,
        ),
        (
            "$fields.map.key",
            12,
            "key",
            "the map `$fields.map` has no member `key`",
            None,
        ),
        (
            "$bar.turns.count.x.y",
            17,
            "x.y",
            "nothing may follow `count`",
            None,
        ),
        (
            "$fields.u.kind.x",
            15,
            "x",
            "nothing may follow `kind`, the tag of `$fields.u`",
            None,
        ),
        (
            "$fields.u.kin",
            10,
            "kin",
            "the union `$fields.u` has no member `kin`",
            Some("kind"),
        ),
        (
            "$turn.count",
            6,
            "count",
            "`$fields.bars[].turns[]` has no `count`, its kind is integer",
            None,
        ),
        (
            "$fields.name.cuont",
            13,
            "cuont",
            "`$fields.name` has no members, its kind is string",
            Some("count"),
        ),
        (
            "$fields.id.x.y",
            11,
            "x",
            "`$fields.id` has no members, its kind is integer",
            None,
        ),
    ];
    hold("segments", SCHEMA, "operation_template", cases);
}

#[test]
fn names_that_are_not_there_are_told_from_those_that_are_not_shown() {
    let cases: &[Case] = &[
        ("$", 1, "", "a name is missing after `$`", None),
        ("$.x", 1, "", "a name is missing after `$`", None),
        ("$ba.threaded", 0, "$ba", "unknown name `$ba`", Some("$bar")),
        ("$trun", 0, "$trun", "unknown name `$trun`", Some("$turn")),
        (
            "$versoin",
            0,
            "$versoin",
            "unknown name `$versoin`",
            Some("$version"),
        ),
        (
            "$feilds.name",
            0,
            "$feilds",
            "unknown name `$feilds`",
            Some("$fields"),
        ),
        ("$bars", 0, "$bars", "unknown name `$bars`", Some("$bar")),
        (
            "$map",
            0,
            "$map",
            "unknown name `$map`",
            Some("$fields.map"),
        ),
        ("$loom.width", 0, "$loom", "unknown name `$loom`", None),
        (
            "$from_state",
            0,
            "$from_state",
            "the kind invariant may not read `$from_state`",
            None,
        ),
        (
            "$args.by",
            0,
            "$args",
            "the kind invariant may not read `$args`",
            None,
        ),
        ("$state.x", 6, ".x", "no path may follow `$state`", None),
    ];
    hold("names", SCHEMA, "invariant", cases);
    let without = SCHEMA.replace("H,0,6,0,2", "H,0,6,-,0");
    let without = without
        .strip_suffix("F,1,0,0,0,2,-,by\nF,1,0,0,0,2,-,on\n")
        .expect("arguments");
    hold(
        "no_arguments",
        without,
        "precondition",
        &[("$args.by", 0, "$args", "the schema has no arguments", None)],
    );
}

#[test]
fn marks_stand_under_the_segment() {
    let folder = folder("marks");
    let schema = "H,0,1,-,0\nF,7,0,0,2,3,-,糸\nF,1,0,0,0,2,-,nr\nF,1,0,0,0,3,-,wei\n";
    fs::write(folder.join("s"), schema).expect("a schema");
    fs::write(folder.join("r"), "T\nV,5,16,$fields.糸.\"we\"\n").expect("a template");
    let out = run(&folder, "check s r --semantics kernel/1 --kind invariant");
    let at = "\n  at      entry 2, string \"$fields.糸.\\\"we\\\"\"\n";
    let marks = format!(
        "{}^^^^^^ there are `nr`, `wei`\n",
        " ".repeat(2 + 8 + 17 + 11)
    );
    assert!(out.contains(&format!("{at}{marks}")), "{out}");

    let out = run(&folder, "path s 糸.x --semantics kernel/1");
    let told = "糸.x: defect 18 (reference): a reference cannot be read: the closed object `$fields.糸` has no property `x`\n";
    assert_eq!(
        out,
        format!(
            "{told}  at      糸.x\n{}^ there are `nr`, `wei`\n",
            " ".repeat(13)
        )
    );
}

#[test]
fn what_steers_a_terminal_is_not_printed() {
    let folder = folder("steering");
    fs::write(folder.join("s"), "H,0,1,-,0\nF,1,0,0,0,3,-,a\x1bb\n").expect("a schema");
    fs::write(folder.join("r"), "T\nV,5,11,$fields.a\x1bc\n").expect("a template");
    let out = run(&folder, "check s r --semantics kernel/1 --kind invariant");
    assert!(!out.contains('\x1b'), "{out:?}");
    assert!(
        out.contains("no field `a\\u{1b}c` and is closed\n"),
        "{out}"
    );
    assert!(
        out.contains(" ^^^^^^^^ did you mean `a\\u{1b}b`?\n"),
        "{out}"
    );
}
