//! The tool on what must be opened in a schema.

mod support;

use entity_rules::{Book, Kind, Name, Table};
use std::fs;
use std::path::{Path, PathBuf};
use support::tool::{folder, mill, printed, run};

const SETTINGS: &str = "--kind precondition --semantics service/1";

/// A closed object `o` with an object `p` in it, and closed arguments.
const SCHEMA: &str = "H,0,1,0,0\nF,7,0,0,1,1,-,o\nF,7,0,0,0,1,-,p\n";

fn reading(reference: &str) -> String {
    format!("T\nV,5,{},{reference}\n", reference.len())
}

/// A folder with that schema and templates that each read one thing.
fn filled(name: &str) -> PathBuf {
    let folder = folder(name);
    let file = |name: &str, text: &str| fs::write(folder.join(name), text).expect("a file");
    file("s", SCHEMA);
    file("good", &reading("$fields.o.p"));
    file("record", &reading("$fields.q"));
    file("nested", &reading("$fields.o.p.q.r"));
    file("arguments", &reading("$args.q"));
    file("hopeless", &reading("$nope"));
    file("none", "R");
    folder
}

fn open(folder: &Path, words: &str) -> (Option<i32>, String) {
    printed(folder, &format!("open {words} {SETTINGS}"))
}

#[test]
fn the_readme_shows_what_is_printed_for_openings() {
    let readme = include_str!("../README.md");
    let mut count = 0;
    for block in readme.split("```console\n").skip(1) {
        let (shown, _) = block.split_once("```").expect("the end of the example");
        let (command, shown) = shown.split_once('\n').expect("a command");
        if let Some(words) = command.strip_prefix("$ entity-rules open ") {
            if !words.contains(" > ") {
                assert_eq!(printed(&mill(), &format!("open {words}")).1, shown);
                count += 1;
            }
        }
    }
    assert_eq!(count, 1);
}

#[test]
fn each_object_is_named_with_what_it_is_needed_for() {
    let folder = filled("openings");
    let told = |words: &str| open(&folder, words).1;
    assert_eq!(told("s good"), "good: accepted, nothing to open\n");
    let expected = r#"
nested: accepted if 1 object is opened
  open    s:3: entry 3, $fields.o.p: object
  for     line 2, entry 2, string "$fields.o.p.q.r"
                                               ^
"#;
    assert_eq!(told("s nested"), expected.trim_start());
    let [by, misspelt] = ["$args.by", "$fields.o.pp"].map(|text| reading(text)[2..].to_owned());
    let template = format!("T\nV,6,2,\n{by}{misspelt}");
    fs::write(folder.join("two"), template).expect("a template");
    let expected = r#"
two: accepted if 2 objects are opened
  open    s:1: entry 1, $args: closed, with 0 fields
  for     line 3, entry 3, string "$args.by"
                                         ^^
  open    s:2: entry 2, $fields.o: object
  for     line 4, entry 4, string "$fields.o.pp"
                                             ^^ did you mean `p`?
"#;
    assert_eq!(told("s two"), expected.trim_start());
}

#[test]
fn a_collection_that_only_its_path_names_is_named_by_its_quantifier() {
    let folder = folder("openings_over");
    let schema = "H,0,1,-,0\nF,6,0,1,0,1,-,a\nF,7,0,0,0,0,-,\n";
    let rule = "R,-,-,\nC,20,1,b\nV,5,9,$fields.a\nC,21,1,c\nV,5,4,xb.q\nC,1,1,\n";
    fs::write(folder.join("s"), schema).expect("a schema");
    fs::write(folder.join("r"), rule).expect("a rule");
    assert_eq!(
        open(&folder, "s r").1,
        "r: accepted if 1 object is opened\n  open    s:3: entry 3, $fields.a[]: object\n  \
         for     line 4, entry 4, condition for_any, bind \"c\"\n"
    );
}

#[test]
fn what_no_opening_helps_shows_what_remains() {
    let folder = filled("openings_none");
    fs::write(
        folder.join("both"),
        format!(
            "T\nV,6,2,\n{}{}",
            &reading("$fields.q")[2..],
            &reading("$fields.o.p.")[2..]
        ),
    )
    .expect("a template");
    let (status, out) = open(&folder, "s both");
    assert_eq!(status, Some(1));
    assert!(out.starts_with(
        "both: no opening helps\n  with everything open\n    both:4: defect 18 (reference): "
    ));
    assert!(out.contains("\n      path    both[1]\n"), "{out}");
}

#[test]
fn the_status_is_that_of_the_worst_rule() {
    let folder = filled("openings_statuses");
    let status = |words: &str| open(&folder, words).0;
    assert_eq!(status("s good record nested arguments"), Some(0));
    assert_eq!(status("s good hopeless record"), Some(1));
    assert_eq!(status("s good hopeless none"), Some(2));
    assert_eq!(status("s missing"), Some(2));
    assert_eq!(status("good record"), Some(2));
    assert_eq!(status("missing record"), Some(2));
    assert_eq!(status("s record --table s"), Some(2));
    let (_, out) = open(&folder, "s good record nested hopeless none");
    assert!(out.ends_with(
        "5 rules: 1 accepted, 2 accepted if objects are opened, 1 that no opening helps, 1 not checked\n"
    ));
    assert_eq!(
        open(&folder, "s good good --quiet"),
        (Some(0), String::new())
    );
    let (_, out) = open(&folder, "s good record --quiet");
    assert!(out.starts_with("record: "), "{out}");
    assert!(out.ends_with(
        "2 rules: 1 accepted, 1 accepted if objects are opened, 0 that no opening helps\n"
    ));
}

#[test]
fn a_schema_that_is_refused_is_told_once() {
    let folder = filled("openings_refused");
    let (status, out) = open(&folder, "none record nested");
    let first = "none:1: refused 4 (schema sheet): entry 1, byte 0: expected `H`, which begins a schema sheet\n";
    assert_eq!(status, Some(2));
    assert_eq!(out.lines().count(), 2, "{out}");
    assert!(out.starts_with(first), "{out}");
    let (_, lines) = open(&folder, "none record nested --json");
    assert_eq!(lines.lines().count(), 2);
}

#[test]
fn the_schema_is_written_with_all_of_it_open() {
    let folder = filled("openings_written");
    let written = |words: &str| {
        let output = run(&folder, &format!("open s {words} {SETTINGS} --write"));
        let [out, err] =
            [output.stdout, output.stderr].map(|text| String::from_utf8(text).expect("UTF-8"));
        (output.status.code(), out, err)
    };
    let nothing = String::new;
    assert_eq!(written("good"), (Some(0), SCHEMA.to_owned(), nothing()));
    let all = "H,1,1,1,0\nF,7,0,0,1,1,-,o\nF,7,1,0,0,1,-,p\n";
    assert_eq!(
        written("record nested arguments record"),
        (Some(0), all.to_owned(), nothing())
    );
    let (status, out, err) = written("record hopeless");
    assert_eq!(
        (status, out.as_str()),
        (Some(1), &*SCHEMA.replacen("H,0", "H,1", 1))
    );
    assert!(
        err.starts_with("entity-rules: hopeless: no opening helps\n"),
        "{err}"
    );
    let (status, out, err) = written("record none");
    assert_eq!((status, out.as_str()), (Some(2), ""));
    assert!(
        err.starts_with("entity-rules: none:1: refused 5 (rule sheet): "),
        "{err}"
    );
    assert!(
        err.ends_with(
            "entity-rules: open: the schema is not written, since a rule cannot be checked\n"
        ),
        "{err}"
    );
}

#[test]
fn sheets_of_books_and_files_of_folders_are_rules() {
    let folder = filled("openings_many");
    let book = Book::new()
        .sheet(reading("$fields.q"))
        .sheet(reading("$fields.o"));
    fs::write(folder.join("book"), book.bytes()).expect("a book");
    let (status, out) = open(&folder, "s book");
    assert_eq!(status, Some(0));
    assert!(
        out.starts_with(
            "book: sheet 1: accepted if 1 object is opened\n  open    s:1: entry 1, $fields: "
        ),
        "{out}"
    );
    assert!(
        out.contains("\nbook: sheet 2: accepted, nothing to open\n"),
        "{out}"
    );
    let rules = folder.join("rules");
    fs::create_dir(&rules).expect("a folder");
    fs::write(rules.join("a"), reading("$state")).expect("a template");
    fs::write(rules.join("rules.list"), "a create_template\n").expect("a list");
    assert_eq!(
        open(&folder, "s rules").1,
        "rules/a: accepted, nothing to open\n"
    );
}

#[test]
fn a_table_decides_what_may_be_read() {
    let folder = filled("openings_table");
    let table = Table::stock().hide(Kind::Precondition, Name::Args);
    fs::write(folder.join("t"), table.sheet().expect("a table")).expect("a table");
    assert_eq!(open(&folder, "s arguments").0, Some(0));
    let (status, out) = open(&folder, "s arguments --table t");
    assert_eq!(status, Some(1));
    assert!(out.contains("may not read `$args`"), "{out}");
}

#[test]
fn every_key_has_a_row_in_the_readme() {
    let folder = filled("openings_json");
    let (status, out) = open(&folder, "s good nested hopeless none --json");
    assert_eq!(status, Some(2));
    let lines: Vec<&str> = out.lines().collect();
    assert_eq!(
        lines[0],
        r#"{"file":"good","verdict":"openings","number":0,"openings":[]}"#
    );
    assert!(lines[1].starts_with(
        r#"{"file":"nested","verdict":"openings","number":0,"openings":[{"mark":3,"place":3,"line":3,"path":"$fields.o.p","entry":"object","need":{"verdict":"defect","number":18,"#
    ));
    assert!(lines[2].starts_with(
        r#"{"file":"hopeless","verdict":"none","number":0,"remains":{"verdict":"defect","number":18,"#
    ));
    let readme = include_str!("../README.md");
    let keys = out
        .split(['{', ','])
        .filter_map(|part| part.split_once("\":"));
    for (key, _) in keys {
        let key = key.trim_start_matches('"');
        assert!(readme.contains(&format!("`{key}`")), "{key}");
    }
}

#[test]
fn a_file_name_that_is_no_text_needs_no_label_for_a_set() {
    use std::ffi::OsString;
    use std::os::unix::ffi::OsStringExt;
    let folder = filled("openings_name");
    let file = OsString::from_vec(b"b\xFFd".to_vec());
    fs::write(folder.join(&file), reading("$fields.q")).expect("a template");
    let output = std::process::Command::new(env!("CARGO_BIN_EXE_entity-rules"))
        .args(["open", "s"])
        .arg(&file)
        .args(SETTINGS.split(' '))
        .current_dir(&folder)
        .output()
        .expect("the tool runs");
    assert_eq!(output.status.code(), Some(0));
    let out = String::from_utf8(output.stdout).expect("UTF-8");
    assert!(
        out.starts_with("b\\xffd: accepted if 1 object is opened\n  open    s:1: "),
        "{out}"
    );
}
