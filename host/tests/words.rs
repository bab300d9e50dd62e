//! Words of the command line that are not UTF-8, short options, and the names of kinds.

use std::ffi::OsString;
use std::fs;
use std::os::unix::ffi::OsStringExt;
use std::path::{Path, PathBuf};
use std::process::{Command, Output};

/// A folder of its own for a test, with a schema and a template, whose file's name is not UTF-8.
fn folder(name: &str) -> (PathBuf, OsString) {
    let folder = Path::new(env!("CARGO_TARGET_TMPDIR")).join(name);
    let _ = fs::remove_dir_all(&folder);
    fs::create_dir_all(&folder).expect("a folder");
    fs::write(folder.join("s"), "H,0,0,-,0\n").expect("a schema");
    let file = OsString::from_vec(b"b\xFFd.rule".to_vec());
    fs::write(folder.join(&file), "T\nV,5,3,$ix\n").expect("a template");
    (folder, file)
}

fn run(folder: &Path, words: impl IntoIterator<Item = impl Into<OsString>>) -> Output {
    Command::new(env!("CARGO_BIN_EXE_entity-rules"))
        .args(words.into_iter().map(Into::into))
        .current_dir(folder)
        .output()
        .expect("the tool runs")
}

fn out(output: &Output) -> String {
    String::from_utf8(output.stdout.clone()).expect("UTF-8")
}

const SETTINGS: [&str; 4] = ["--kind", "invariant", "--semantics", "kernel/1"];

/// The words of a check of these files, then others.
fn check(file: &OsString, others: &[&str]) -> Vec<OsString> {
    let words = ["check", "s"].into_iter().map(OsString::from);
    let others = SETTINGS.iter().chain(others).map(OsString::from);
    words.chain([file.clone()]).chain(others).collect()
}

#[test]
fn a_file_name_that_is_no_text_is_no_label() {
    let (folder, file) = folder("no_label");
    let output = run(&folder, check(&file, &[]));
    assert_eq!(output.status.code(), Some(2));
    assert_eq!(
        out(&output),
        "b\\xffd.rule: refused 2 (label): the label is over 256 bytes long, or not UTF-8; expected another label, for instance by --label\n"
    );
    let output = run(&folder, check(&file, &["--json"]));
    assert!(out(&output).starts_with(
        "{\"file\":\"b\\\\xffd.rule\",\"file_bytes\":\"62ff642e72756c65\",\"verdict\":\"refused\",\"number\":2,"
    ));
}

#[test]
fn a_file_of_any_name_is_checked_under_a_label() {
    let (folder, file) = folder("a_label");
    let output = run(&folder, check(&file, &["--label", "good"]));
    assert_eq!(output.status.code(), Some(1));
    assert!(out(&output).starts_with("b\\xffd.rule:2: defect 18 (reference)"));
    assert!(out(&output).contains("\n  path    good\n"));
}

#[test]
fn words_that_are_no_text_are_refused() {
    let (folder, file) = folder("no_text");
    for word in [&b"--label=\xFF"[..], b"-\xFF"] {
        let word = OsString::from_vec(word.to_vec());
        let output = run(&folder, check(&file, &[]).into_iter().chain([word]));
        assert_eq!((output.status.code(), output.stdout.len()), (Some(2), 0));
        let told = String::from_utf8_lossy(&output.stderr).into_owned();
        assert!(
            told.contains("expected an option that is text, not"),
            "{told}"
        );
    }
    let label = ["--label".into(), OsString::from_vec(b"\xFF".to_vec())];
    let output = run(&folder, check(&file, &[]).into_iter().chain(label));
    assert!(String::from_utf8_lossy(&output.stderr).contains("--label: expected text"));

    let path = OsString::from_vec(b"a\xC3".to_vec());
    let words = ["path", "s", "--semantics", "kernel/1"].map(OsString::from);
    let output = run(&folder, words.into_iter().chain([path]));
    assert!(out(&output).starts_with("a\\xc3: refused 2 (path): "));
    let text = OsString::from_vec(b"2024-01-01\xFE".to_vec());
    let output = run(&folder, [OsString::from("instant"), text]);
    assert!(out(&output).starts_with("2024-01-01\\xfe: defect 20 (instant): "));
}

#[test]
fn a_table_has_any_file_name() {
    let (folder, file) = folder("tables_name");
    let table = OsString::from_vec(b"t\xFF".to_vec());
    let stock = run(&folder, ["table"]).stdout;
    fs::write(folder.join(&table), stock).expect("a table");
    let words = check(&file, &["--label", "l"]).into_iter();
    let output = run(&folder, words.chain(["--table".into(), table]));
    assert_eq!(output.status.code(), Some(1), "{output:?}");
}

#[test]
fn short_options_do_what_the_long_ones_do() {
    let (folder, _) = folder("short");
    for (short, long) in [("-h", "--help"), ("-V", "--version")] {
        let output = run(&folder, [short]);
        assert!(output.status.success());
        assert_eq!(output.stdout, run(&folder, [long]).stdout);
        assert!(out(&run(&folder, ["-h"])).contains(&format!("\n  {short}, {long}  ")));
    }
}

#[test]
fn kinds_and_readers_are_spelled_as_in_the_format_too() {
    let (folder, file) = folder("spelled");
    for kind in [
        "CreateOutcomeTemplate",
        "create_outcome_template",
        "create-outcome-template",
    ] {
        let words = [
            "check",
            "s",
            "--semantics",
            "kernel/1",
            "--label",
            "l",
            "--kind",
            kind,
        ];
        let words = words.map(OsString::from).into_iter().chain([file.clone()]);
        assert_eq!(run(&folder, words).status.code(), Some(1), "{kind}");
    }
    let words = [
        "path",
        "s",
        "a",
        "--semantics",
        "kernel/1",
        "--reader",
        "Projection",
    ];
    assert_eq!(run(&folder, words).status.code(), Some(1));
    let format = include_str!("../../docs/FORMAT.md");
    for kind in entity_rules::Kind::ALL {
        let row = format!("\n| {} | {} |", kind.number(), kind.name());
        assert!(format.contains(&row), "{row}");
    }
}
