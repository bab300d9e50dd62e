//! The tool on whole folders of rules.

mod support;

use entity_rules::Book;
use std::ffi::OsString;
use std::fs;
use std::os::unix::ffi::OsStringExt;
use std::os::unix::fs::symlink;
use std::path::{Path, PathBuf};
use support::tool::{folder, mill, printed, run};

const SETTINGS: &str = "--kind precondition --semantics service/1";
const ACCEPTED: &str = "R,-,-,\nC,1,1,\n";
const DEFECT: &str = "R,0,-,\nC,1,1,\n";

/// A folder with a schema `s` and a folder `rules` of these files.
fn rules(name: &str, files: &[(&str, &str)]) -> PathBuf {
    let folder = folder(name);
    fs::write(folder.join("s"), "H,0,0,-,0\n").expect("a schema");
    fs::create_dir(folder.join("rules")).expect("a folder");
    for (name, sheet) in files {
        fs::write(folder.join("rules").join(name), sheet).expect("a file");
    }
    folder
}

fn check(folder: &Path, words: &str) -> (Option<i32>, String) {
    printed(folder, &format!("check {words} {SETTINGS}"))
}

/// What is said on standard error where nothing is printed and the status is 2.
fn complaint(folder: &Path, line: &str) -> String {
    let output = run(folder, line);
    assert_eq!(output.status.code(), Some(2), "{line}");
    assert!(output.stdout.is_empty(), "{line}");
    String::from_utf8(output.stderr).expect("UTF-8")
}

#[test]
fn the_readme_shows_a_folder() {
    let readme = include_str!("../README.md");
    let (_, example) = readme
        .split_once("$ entity-rules check pattern.schema rules ")
        .expect("an example");
    let (options, rest) = example.split_once('\n').expect("a command");
    let (shown, _) = rest.split_once("```").expect("the end of the example");
    let (status, out) = printed(&mill(), &format!("check pattern.schema rules {options}"));
    assert_eq!((status, out.as_str()), (Some(1), shown));
    let list = fs::read_to_string(mill().join("rules/rules.list")).expect("a list");
    assert!(readme.contains(&format!("$ cat rules/rules.list\n{list}")));
}

#[test]
fn files_come_in_the_order_of_their_bytes_without_hidden_ones() {
    let files = [
        ("b", ACCEPTED),
        ("a.rule", ACCEPTED),
        ("a-1", DEFECT),
        ("B", ACCEPTED),
        ("é", ACCEPTED),
        (".hidden", DEFECT),
        ("table", "N,"),
        ("empty", ""),
    ];
    let folder = rules("order", &files);
    let below = folder.join("rules/below");
    fs::create_dir(&below).expect("a folder");
    fs::write(below.join("c"), DEFECT).expect("a file");
    let (status, out) = check(&folder, "s rules");
    let expected = "\
rules/B: accepted, all 4 checks passed
rules/a-1:1: defect 11 (name): the rule's name is blank
  message rule name cannot be empty
  path    a-1
  at      entry 1, rule \"\"
  family  1 InvalidRule, a fault of the rule
  passed  0 checks before this one
rules/a.rule: accepted, all 4 checks passed
rules/b: accepted, all 4 checks passed
rules/empty:1: refused 5 (rule sheet): entry 1, byte 0: expected `R`, which begins a rule, or `T`, which begins a template
rules/table:1: refused 5 (rule sheet): entry 1, byte 0: expected `R`, which begins a rule, or `T`, which begins a template
rules/é: accepted, all 4 checks passed
7 rules: 4 accepted, 1 with a defect, 2 refused
";
    assert_eq!((status, out.as_str()), (Some(2), expected));
}

#[test]
fn a_folder_is_as_its_files_one_by_one() {
    let book = Book::new().sheet(ACCEPTED).sheet(DEFECT);
    let book = String::from_utf8(book.bytes().to_vec()).expect("UTF-8");
    let files = [("a", ACCEPTED), ("b", DEFECT), ("c", &book), ("d", "X")];
    let folder = rules("alike", &files);
    let each = "rules/a rules/b rules/c rules/d";
    for option in ["", "--json", "--sarif", "--quiet", "--label l"] {
        let whole = check(&folder, &format!("s rules {option}"));
        assert_eq!(whole, check(&folder, &format!("s {each} {option}")));
        assert_eq!(whole.0, Some(2));
    }
    for command in ["upgrade s s", "upgrade s s --json"] {
        assert_eq!(
            printed(&folder, &format!("{command} rules {SETTINGS}")),
            printed(&folder, &format!("{command} {each} {SETTINGS}"))
        );
    }
    for command in ["show", "book"] {
        let [whole, apart] =
            ["rules", each].map(|words| run(&folder, &format!("{command} {words}")));
        assert_eq!(
            (whole.status, whole.stdout, whole.stderr),
            (apart.status, apart.stdout, apart.stderr)
        );
    }
}

#[test]
fn folders_and_files_come_in_the_order_given() {
    let folder = rules("mixed", &[("a", ACCEPTED)]);
    fs::write(folder.join("z"), ACCEPTED).expect("a file");
    let (status, out) = check(&folder, "s z rules/ z");
    let line = |name| format!("{name}: accepted, all 4 checks passed\n");
    let expected = [line("z"), line("rules/a"), line("z")].concat();
    assert_eq!(status, Some(0));
    assert_eq!(
        out,
        format!("{expected}3 rules: 3 accepted, 0 with a defect, 0 refused\n")
    );
}

#[test]
fn a_list_gives_kinds_and_labels() {
    let reads = "R,-,-,\nC,8,0,\nV,5,9,$to_state\nV,5,1,x\n";
    let list = "# who reads the state\na precondition\nb invariant gate one\n\nc Invariant\n";
    let folder = rules("listed", &[("a", reads), ("b", reads), ("c", reads)]);
    let write = |list: &str| fs::write(folder.join("rules/rules.list"), list).expect("a list");
    let run = |words: &str| {
        printed(
            &folder,
            &format!("check s rules --semantics service/1 {words}"),
        )
    };

    write(list);
    let (status, out) = run("");
    assert_eq!(status, Some(1));
    assert!(out.starts_with("rules/a: accepted, "));
    assert!(out.contains(
        "may not read `$to_state`\n  message '$to_state' is not a reference available here; "
    ));
    assert!(out.contains("\n  path    gate one.assert.eq[0]\n"));
    assert!(out.contains("  path    c.assert.eq[0]\n"));
    assert!(out.ends_with("3 rules: 1 accepted, 2 with a defect, 0 refused\n"));

    // The list goes before the command line, which has the rest.
    let (_, out) = run("--kind create_set --label l");
    assert!(out.starts_with("rules/a: accepted, "));
    assert!(out.contains("  path    gate one.assert.eq[0]\n"));
    assert!(out.contains("  path    l.assert.eq[0]\n"));

    write("b invariant\n");
    let (status, out) = run("--kind precondition");
    assert_eq!(status, Some(1));
    assert!(out.ends_with("3 rules: 2 accepted, 1 with a defect, 0 refused\n"));
}

#[test]
fn what_a_list_names_is_checked_or_missed() {
    let folder = rules("named", &[(".a", ACCEPTED), ("b", ACCEPTED)]);
    let below = folder.join("rules/below");
    fs::create_dir(&below).expect("a folder");
    fs::write(below.join("c"), ACCEPTED).expect("a file");
    let list = "zz precondition\nbelow/c precondition\n.a precondition\n";
    fs::write(folder.join("rules/rules.list"), list).expect("a list");
    let (status, out) = check(&folder, "s rules");
    assert_eq!(status, Some(2));
    let accepted =
        [".a", "b", "below/c"].map(|name| format!("rules/{name}: accepted, all 4 checks passed\n"));
    let rest = out.strip_prefix(&accepted.concat()).expect("three rules");
    assert!(rest.starts_with("rules/zz: unreadable: expected a file that holds a rule sheet: "));
    assert!(rest.ends_with("4 rules: 3 accepted, 0 with a defect, 0 refused, 1 unreadable\n"));
}

#[test]
fn a_kind_is_missed_before_anything_is_read() {
    let folder = rules("kinds", &[("a", ACCEPTED), ("b", ACCEPTED)]);
    fs::write(folder.join("rules/rules.list"), "a invariant\n").expect("a list");
    for command in ["check - rules/a", "upgrade s - rules/a"] {
        let told = complaint(&folder, &format!("{command} --semantics kernel/1"));
        let (name, _) = command.split_once(' ').expect("a command");
        assert!(told.starts_with(&format!(
            "entity-rules: {name}: expected --kind KIND, one of invariant, precondition,"
        )));
        assert!(told.ends_with("create_outcome_template\nTry `entity-rules --help`.\n"));
    }
    let told = complaint(&folder, "check s rules --semantics kernel/1");
    assert!(told.contains("; or a line `b KIND` in rules/rules.list\n"));
}

#[test]
fn folders_that_are_of_no_use_are_said_to_be_so() {
    let folder = rules("useless", &[]);
    let lines = [
        format!("check s rules {SETTINGS}"),
        format!("upgrade s s rules {SETTINGS}"),
        "show rules".to_owned(),
        "book rules".to_owned(),
    ];
    let all = |expected: &str| {
        for line in &lines {
            assert_eq!(
                complaint(&folder, line),
                format!("entity-rules: {expected}\n")
            );
        }
    };
    all("rules: expected a folder that has files of rules");
    let list = |text: &[u8]| fs::write(folder.join("rules/rules.list"), text).expect("a list");
    list(b"# none\n");
    all("rules: expected a folder that has files of rules");
    list(b"\na\n");
    all("rules/rules.list:2: expected `FILE KIND` or `FILE KIND LABEL`, not \"a\"");
    list(b"a invariant\na invariant\n");
    all("rules/rules.list:2: expected each file once, but \"a\" again");
    list(b"\xff invariant\n");
    all("rules/rules.list: expected text in UTF-8");
    list(b"a rule\n");
    assert!(complaint(&folder, "show rules").starts_with(
        "entity-rules: rules/rules.list:1: \"rule\" is not a known kind; expected one of"
    ));
}

#[test]
fn links_are_followed_and_names_may_be_any_bytes() {
    let folder = rules("links", &[]);
    fs::write(folder.join("z"), ACCEPTED).expect("a file");
    symlink("../z", folder.join("rules/link")).expect("a link");
    symlink("nowhere", folder.join("rules/lost")).expect("a link");
    symlink("..", folder.join("rules/up")).expect("a link");
    let name = OsString::from_vec(b"x\xff".to_vec());
    fs::write(folder.join("rules").join(name), ACCEPTED).expect("a file");
    let (status, out) = check(&folder, "s rules --label l");
    assert_eq!(status, Some(2));
    assert!(out.starts_with("rules/link: accepted, all 4 checks passed\nrules/lost: unreadable: "));
    assert!(out.contains("\nrules/x\\xff: accepted, all 4 checks passed\n3 rules: "));
}

#[test]
fn a_folder_is_tallied_with_the_kinds_of_its_list() {
    let reads = "R,-,-,\nC,8,0,\nV,5,9,$to_state\nV,5,1,x\n";
    let book = Book::new().sheet(reads).sheet(DEFECT);
    let book = String::from_utf8(book.bytes().to_vec()).expect("UTF-8");
    let list = "b invariant\nc.book invariant\n";
    let files = [
        ("a", reads),
        ("b", reads),
        ("c.book", &book),
        ("d", reads),
        ("e", "X"),
        ("rules.list", list),
    ];
    let folder = rules("tallied", &files);
    let line = format!("tally s rules {SETTINGS}");
    let (status, out) = printed(&folder, &line);
    assert_eq!(status, Some(2));
    let first = "rules: tally of 6 sheets: 2 accepted, 3 with a defect, 1 refused; ";
    assert!(out.starts_with(first), "{out}");
    assert!(out.contains("  18  reference     2 "));
    let (_, json) = printed(&folder, &format!("{line} --json"));
    assert!(json.starts_with(
        "{\"file\":\"rules\",\"verdict\":\"tallied\",\"number\":0,\"read\":6,\"accepted\":2,"
    ));

    fs::write(folder.join("rules/f"), "9,").expect("a file");
    let (status, out) = printed(&folder, &line);
    assert_eq!(status, Some(2));
    assert!(
        out.starts_with("rules/f:1: refused 34 (book form): sheet 1, byte 0: "),
        "{out}"
    );
    fs::write(folder.join("rules/rules.list"), "b\n").expect("a list");
    assert!(complaint(&folder, &line).starts_with("entity-rules: rules/rules.list:1: expected "));
    let told = complaint(&folder, &format!("wall s rules {SETTINGS}"));
    assert!(
        told.contains("rules: unreadable: expected a file that holds a rule book: "),
        "{told}"
    );
}
