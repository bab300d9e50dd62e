//! The tool on rule books.

mod support;

use entity_rules::Book;
use std::ffi::OsString;
use std::fs;
use std::io::Write;
use std::os::unix::ffi::OsStringExt;
use std::path::Path;
use std::process::{Command, Stdio};
use support::tool::{folder, mill, printed, run};

const SETTINGS: &str = "--kind precondition --semantics service/1";

fn tally(folder: &Path, words: &str) -> (Option<i32>, String) {
    printed(folder, &format!("tally {words} {SETTINGS}"))
}

#[test]
fn the_readme_shows_what_is_printed_for_books() {
    let readme = include_str!("../README.md");
    let mut count = 0;
    for block in readme.split("```console\n").skip(1) {
        let (shown, _) = block.split_once("```").expect("the end of the example");
        let Some((command, shown)) = shown.split_once('\n') else {
            continue;
        };
        if command.contains("mill.book") && !command.contains(" wall ") {
            let line = command.trim_start_matches("$ entity-rules ");
            assert_eq!(printed(&mill(), line).1, shown);
            count += 1;
        }
    }
    assert_eq!(count, 2);
}

#[test]
fn the_status_is_that_of_the_worst_sheet() {
    let folder = folder("statuses");
    let accepted = "R,-,-,\nC,1,1,\n";
    let file =
        |name: &str, book: &Book| fs::write(folder.join(name), book.bytes()).expect("a book");
    file("good", &Book::new().sheet(accepted).sheet(accepted));
    file(
        "defect",
        &Book::new().sheet(accepted).sheet("R,0,-,\nC,1,1,\n"),
    );
    file("refused", &Book::new().sheet("R,0,-,\nC,1,1,\n").sheet(""));
    fs::write(folder.join("s"), "H,0,0,-,0\n").expect("a schema");
    let status = |words: &str| tally(&folder, words).0;
    assert_eq!(status("s good"), Some(0));
    assert_eq!(status("s defect"), Some(1));
    assert_eq!(status("s refused"), Some(2));
    assert_eq!(status("good good"), Some(2));
    assert_eq!(status("s missing"), Some(2));
    assert_eq!(status("missing good"), Some(2));
    assert_eq!(status("s s"), Some(2));
    assert_eq!(status("s good --table s"), Some(2));
    assert_eq!(run(&folder, "tally s good").status.code(), Some(2));

    assert_eq!(tally(&folder, "s good --quiet"), (Some(0), String::new()));
    let (_, out) = tally(&folder, "s defect --quiet");
    assert!(out.starts_with("defect: tally of 2 sheets: 1 accepted, 1 with a defect, 0 refused; "));
}

#[test]
fn a_book_without_sheets_is_told_as_such() {
    let folder = folder("empty");
    fs::write(folder.join("s"), "H,0,0,-,0\n").expect("a schema");
    fs::write(folder.join("b"), "").expect("a book");
    let told = "b: no sheets, nothing to check\n".to_owned();
    assert_eq!(tally(&folder, "s b"), (Some(0), told));
    let (_, out) = tally(&folder, "s b --json");
    assert!(out.starts_with(r#"{"file":"b","verdict":"tallied","number":0,"read":0,"#));
}

#[test]
fn what_is_no_book_is_told_by_its_byte() {
    let folder = folder("no_books");
    let file = |name: &str, bytes: &str| fs::write(folder.join(name), bytes).expect("a file");
    file("s", "H,0,0,-,0\n");
    for (bytes, line, told) in [
        (
            "14,R,-,-,\nC,1,1,\n14,R,-,-,\nC,1,1,\n\n",
            5,
            "sheet 3, byte 34: expected a length, digits, before the sheet",
        ),
        (
            "14,R,-,-,\nC,1,1,\n014,R,-,-,\nC,1,1,\n",
            3,
            "sheet 2, byte 17: expected a length without a 0 before it",
        ),
        (
            "14,R,-,-,\nC,1,1,\n14;R,-,-,\nC,1,1,\n",
            3,
            "sheet 2, byte 19: expected a comma after the length",
        ),
        (
            "14,R,-,-,\nC,1,1,\n15,R,-,-,\nC,1,1,\n",
            3,
            "sheet 2, byte 17: expected a length of at most 14, what is left of the file, not 15",
        ),
        (
            "R,-,-,\nC,1,1,\n",
            1,
            "sheet 1, byte 0: expected a length, digits, before the sheet",
        ),
    ] {
        file("b", bytes);
        let expected = format!("b:{line}: refused 34 (book form): {told}\n");
        assert_eq!(tally(&folder, "s b"), (Some(2), expected));
        let (status, out) = tally(&folder, "s b --json");
        assert_eq!(status, Some(2));
        let start = format!(
            r#"{{"file":"b","verdict":"refused","number":34,"word":"book form","explanation":"{told}","fault_file":"b","line":{line},"#
        );
        assert!(out.starts_with(&start), "{out}");
    }
    // Among rules, what begins with a digit is meant as a book.
    file("b", "14;R,-,-,\nC,1,1,\n");
    let told = "b:1: refused 34 (book form): sheet 1, byte 2: expected a comma after the length\n";
    let checked = printed(&folder, &format!("check s b {SETTINGS}"));
    assert_eq!(checked, (Some(2), told.to_owned()));
}

#[test]
fn a_bad_schema_is_told_with_the_tally() {
    let folder = folder("bad_schema");
    fs::write(folder.join("s"), "H,0,1,-,0\nF,13,0,0,0,1,-,a\n").expect("a file");
    fs::write(folder.join("b"), "0,0,").expect("a book");
    let (status, out) = tally(&folder, "s b");
    assert_eq!(status, Some(2));
    let start = "s:2: refused 4 (schema sheet): entry 2, byte 12: expected the field's kind, 1 to 12\n\
                 b: tally of 2 sheets: 0 accepted, 0 with a defect, 2 refused; 0 checks passed\n   \
                 0  accepted      0\n   \
                 4  schema sheet  2  100.0%  ##############################\n";
    assert!(out.starts_with(start), "{out}");
    let (_, out) = tally(&folder, "s b --json");
    let end = r#""passed":0,"explanation":"entry 2, byte 12: expected the field's kind, 1 to 12","fault_file":"s","line":2,"place":2,"byte":12}"#;
    assert!(out.ends_with(&format!("{end}\n")), "{out}");
}

#[test]
fn machines_read_json_of_a_tally() {
    let (status, out) = tally(&mill(), "pattern.schema mill.book --json");
    assert_eq!(status, Some(2));
    assert_eq!(
        out,
        concat!(
            r#"{"file":"mill.book","verdict":"tallied","number":0,"read":13,"accepted":5,"schema_refused":0,"rule_refused":1,"found":{"name":1,"message":0,"deep":0,"literal":0,"#,
            r#""operator":0,"empty":1,"operand":0,"reference":3,"affix":0,"instant":1,"bind":0,"over":1},"passed":81}"#,
            "\n"
        )
    );
    let readme = include_str!("../README.md");
    let words = out.split('"').skip(1).step_by(2);
    let keys = words.filter(|word| !["mill.book", "tallied"].contains(word));
    let is_word = |key: &&str| {
        !entity_rules::DefectNumber::ALL
            .iter()
            .any(|one| one.word() == *key)
    };
    for key in keys.filter(is_word) {
        let is_there =
            readme.contains(&format!("| `{key}`")) || readme.contains(&format!(", `{key}`"));
        assert!(is_there, "{key}");
    }
}

#[test]
fn a_book_is_written_from_files() {
    let folder = folder("written");
    let rule = |name: &str| fs::read(mill().join(name)).expect("a rule");
    let (release, misspelt) = (rule("release.rule"), rule("misspelt.rule"));
    let book = |words: &str| run(&mill(), &format!("book {words}"));
    let output = book("release.rule misspelt.rule");
    let expected = Book::new().sheet(&release).sheet(&misspelt);
    assert_eq!(
        (output.status.code(), &*output.stdout),
        (Some(0), expected.bytes())
    );
    assert!(output.stderr.is_empty());

    // The sheets of a book are taken one by one.
    fs::write(folder.join("b"), expected.bytes()).expect("a book");
    fs::write(folder.join("r"), &release).expect("a rule");
    let output = run(&folder, "book r b");
    let expected = Book::new().sheet(&release).sheet(&release).sheet(&misspelt);
    assert_eq!(output.stdout, expected.bytes());
}

#[test]
fn a_book_takes_what_is_no_sheet_and_says_so() {
    let folder = folder("taken");
    let long = "R".repeat(50_000);
    fs::write(folder.join("long"), &long).expect("a file");
    fs::write(folder.join("none"), "").expect("a file");
    let output = run(&folder, "book long none");
    assert_eq!(output.status.code(), Some(0));
    assert_eq!(output.stdout, Book::new().sheet(&long).sheet("").bytes());
    assert_eq!(
        String::from_utf8_lossy(&output.stderr),
        "entity-rules: long:1: written, though it is not a rule sheet: entry 1, byte 1: expected a comma\n\
         entity-rules: none:1: written, though it is not a rule sheet: entry 1, byte 0: expected `R`, which begins a rule, or `T`, which begins a template\n"
    );
}

#[test]
fn a_book_is_not_written_if_a_file_is_missing() {
    let output = run(&mill(), "book release.rule missing.rule");
    assert_eq!((output.status.code(), output.stdout.len()), (Some(2), 0));
    let err = String::from_utf8_lossy(&output.stderr);
    assert!(err.starts_with(
        "entity-rules: missing.rule: unreadable: expected a file that holds a rule sheet: "
    ));
}

/// The mill's book is tallied from files that are put together on the way.
#[test]
fn standard_input_is_a_book_too() {
    let mut tool = Command::new(env!("CARGO_BIN_EXE_entity-rules"))
        .args(format!("tally pattern.schema - {SETTINGS}").split_whitespace())
        .current_dir(mill())
        .stdin(Stdio::piped())
        .stdout(Stdio::piped())
        .spawn()
        .expect("the tool runs");
    let book = run(&mill(), "book release.rule misspelt.rule mill.book");
    assert_eq!(book.status.code(), Some(0));
    let mut input = tool.stdin.take().expect("its input");
    input.write_all(&book.stdout).expect("its input is read");
    drop(input);
    let output = tool.wait_with_output().expect("it ends");
    let out = String::from_utf8_lossy(&output.stdout);
    assert!(out.starts_with("-: tally of 15 sheets: 6 accepted, 8 with a defect, 1 refused; "));
}

#[test]
fn long_books_are_tallied_in_parts_that_add_up() {
    let folder = folder("long_books");
    fs::write(folder.join("s"), "H,0,0,-,0\n").expect("a schema");
    let sheets = [
        "R,-,-,\nC,1,1,\n",
        "R,0,-,\nC,1,1,\n",
        "",
        "T\nV,5,4,$ids\n",
    ];
    let book: Book = sheets.iter().cycle().take(100_001).collect();
    fs::write(folder.join("b"), book.bytes()).expect("a book");
    let (status, out) = tally(&folder, "s b");
    assert_eq!(status, Some(2));
    assert!(!out.contains('\x1b'));
    assert!(out.starts_with(
        "b: tally of 100001 sheets: 25001 accepted, 50000 with a defect, 25000 refused; 100004 checks passed\n"
    ));
    assert!(
        out.contains("\n  11  name           25000   24.9%  #######\n"),
        "{out}"
    );
    assert!(
        out.contains("\n  18  reference      25000   24.9%  #######\n"),
        "{out}"
    );
}

#[test]
fn each_sheet_of_a_book_is_a_rule_of_its_own() {
    let (status, out) = printed(
        &mill(),
        &format!("check pattern.schema mill.book release.rule {SETTINGS}"),
    );
    assert_eq!(status, Some(2));
    let firsts: Vec<&str> = out.lines().filter(|line| !line.starts_with(' ')).collect();
    assert_eq!(firsts.len(), 15);
    assert_eq!(
        firsts[0],
        "mill.book: sheet 1: accepted, all 19 checks passed"
    );
    assert!(firsts[1].starts_with("mill.book:18: sheet 2: defect 18 (reference): "));
    assert!(out.contains("  path    mill[2].assert.for_all.that.eq[0]\n"));
    assert!(
        firsts[12]
            .starts_with("mill.book:69: refused 5 (rule sheet): sheet 13, entry 6, byte 97: ")
    );
    assert_eq!(firsts[13], "release.rule: accepted, all 19 checks passed");
    assert_eq!(
        firsts[14],
        "14 rules: 6 accepted, 7 with a defect, 1 refused"
    );
    // The line is the one that an editor shows.
    let book = fs::read_to_string(mill().join("mill.book")).expect("the book");
    assert_eq!(book.lines().nth(17), Some("V,5,12,$bar.threded"));
    assert!(
        book.lines()
            .nth(68)
            .is_some_and(|line| line.ends_with("C,20,3,ba"))
    );

    let (_, out) = printed(
        &mill(),
        &format!("check pattern.schema mill.book {SETTINGS} --json"),
    );
    let lines: Vec<&str> = out.lines().collect();
    assert_eq!(
        lines[0],
        r#"{"file":"mill.book","sheet":1,"verdict":"accepted","number":0,"passed":19}"#
    );
    assert!(lines[1].contains(r#""path":"mill[2].assert.for_all.that.eq[0]","line":18,"#));
    assert!(lines[12].ends_with(r#","fault_file":"mill.book","line":69,"place":6,"byte":97}"#));
}

/// Columns of the first line of a sheet come after its length.
#[test]
fn what_is_at_fault_is_shown_where_it_stands_in_the_book() {
    let (_, out) = printed(
        &mill(),
        &format!("check pattern.schema mill.book {SETTINGS} --quiet"),
    );
    let pointed = "  at      entry 5, string \"$bar.threded\"\n                                ^^^^^^^ did you mean `threaded`?\n";
    assert!(out.contains(pointed), "{out}");
    let (_, out) = printed(
        &mill(),
        &format!("check pattern.schema mill.book {SETTINGS} --json"),
    );
    let second = out.lines().nth(1).expect("a line for each sheet");
    assert!(
        second.ends_with(r#","segment":"threded","segment_byte":5,"suggestion":"threaded"}"#),
        "{second}"
    );
    let (_, log) = printed(
        &mill(),
        &format!("check pattern.schema mill.book {SETTINGS} --sarif"),
    );
    for [line, start, end] in [[18, 13, 20], [33, 4, 11], [69, 8, 8]] {
        let region = format!(
            r#""artifactLocation":{{"uri":"mill.book"}},"region":{{"startLine":{line},"startColumn":{start},"endLine":{line},"endColumn":{end}}}"#
        );
        assert!(log.contains(&region), "{region}\n{log}");
    }
}

#[test]
fn constant_conditions_are_told_by_the_line_of_the_book() {
    let folder = folder("constants");
    let rule = |name: &str| fs::read(mill().join(name)).expect("a rule");
    let book = Book::new()
        .sheet(rule("fits.rule"))
        .sheet(rule("season.rule"));
    fs::write(folder.join("b.book"), book.bytes()).expect("a book");
    fs::write(folder.join("s"), rule("wider.schema")).expect("a schema");
    let (status, out) = printed(&folder, &format!("check s b.book {SETTINGS} --constants"));
    assert_eq!(status, Some(0));
    let told = "b.book: sheet 2: accepted, all 12 checks passed\n  always true: line 10, entry 6, b[2].assert.all[1]: ";
    assert!(out.contains(told), "{out}");
}

#[test]
fn each_sheet_of_a_book_is_shown() {
    let (status, out) = printed(&mill(), "show mill.book");
    assert_eq!(status, Some(2));
    assert!(out.starts_with("mill.book: sheet 1\n 1  rule \"release\", message "));
    assert!(
        out.contains(
            "\nmill.book: sheet 4\n1  rule \"signed\"\n2    exists\n3      \"$args.by\"\n"
        )
    );
    assert!(out.contains("\nmill.book:69: refused 5 (rule sheet): sheet 13, entry 6, byte 97: "));
}

#[test]
fn a_book_of_any_name_is_checked_under_a_label() {
    let folder = folder("any_name");
    let name = OsString::from_vec(b"b\xFF".to_vec());
    fs::write(folder.join("s"), "H,0,0,-,0\n").expect("a schema");
    fs::write(folder.join(&name), "11,T\nV,5,2,$x\n").expect("a book");
    let check = |others: &[&str]| {
        let output = Command::new(env!("CARGO_BIN_EXE_entity-rules"))
            .args(format!("check s {SETTINGS}").split_whitespace())
            .args(others)
            .arg(&name)
            .current_dir(&folder)
            .output()
            .expect("the tool runs");
        String::from_utf8(output.stdout).expect("UTF-8")
    };
    assert!(check(&[]).starts_with("b\\xff: sheet 1: refused 2 (label): "));
    assert!(check(&["--json"]).starts_with(r#"{"file":"b\\xff","file_bytes":"62ff","sheet":1,"#));
    assert!(check(&["--label", "l"]).starts_with("b\\xff:2: sheet 1: defect 18 (reference): "));
}

#[test]
fn an_upgrade_takes_books_and_files() {
    let words = "pattern.schema wider.schema mill.book fits.rule";
    let (status, out) = printed(&mill(), &format!("upgrade {words} {SETTINGS}"));
    assert_eq!(status, Some(2));
    let changed: Vec<&str> = out
        .lines()
        .filter(|line| line.ends_with(": changed"))
        .collect();
    assert_eq!(
        changed,
        [
            "mill.book: sheet 3: changed",
            "mill.book: sheet 7: changed",
            "fits.rule: changed"
        ]
    );
    assert!(out.contains("\nmill.book: sheet 1: stays accepted by the theorem, not checked again; all 19 checks passed\n"));
    assert!(out.ends_with("\n14 rules: 5 stay accepted, 5 as before, 3 changed, 1 not checked\n"));
    let (_, out) = printed(&mill(), &format!("upgrade {words} {SETTINGS} --json"));
    let third = out.lines().nth(3).expect("a line for each rule");
    assert!(
        third.starts_with(r#"{"file":"mill.book","sheet":3,"change":"changed","#),
        "{third}"
    );
}

#[test]
fn an_empty_file_among_rules_is_meant_as_a_sheet() {
    let folder = folder("empty_rule");
    fs::write(folder.join("s"), "H,0,0,-,0\n").expect("a schema");
    fs::write(folder.join("r"), "").expect("a file");
    let (status, out) = printed(&folder, &format!("check s r {SETTINGS}"));
    assert_eq!(status, Some(2));
    assert!(
        out.starts_with("r:1: refused 5 (rule sheet): entry 1, byte 0: expected "),
        "{out}"
    );
}
