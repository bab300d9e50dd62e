//! The C header and the C example.

mod support;

use entity_rules::limits::{
    CHECK_RESULT_BYTES, EXPLAIN_RESULT_BYTES, JSON_RESULT_BYTES, MARKS_BYTES, MAX_KEY_BYTES,
    MAX_SHEET_BYTES, OPENING_LIST_BYTES, OPENINGS_BYTES, PAGE_BYTES, PAGE_SHEETS, PATH_BYTES,
    RESULT_BYTES, TABLE_BYTES, TALLY_BYTES, WALL_BYTES,
};
use entity_rules::{
    BreachReason, CollectionFault, DefectNumber, Family, InstantFault, Kind, Reader,
    ReferenceFault, Refusal, Semantics, Side, Widening,
};
use std::path::{Path, PathBuf};
use std::process::Command;
use support::skipped;

const HEADER: &str = include_str!("../include/entity_rules.h");

fn host() -> &'static Path {
    Path::new(env!("CARGO_MANIFEST_DIR"))
}

/// A compiler with the flags under which nothing may be amiss.
fn compiler() -> Command {
    let mut compiler = Command::new("cc");
    compiler
        .args(["-Wall", "-Wextra", "-Wpedantic", "-Werror", "-I"])
        .arg(host().join("include"));
    compiler
}

/// The example, compiled by these flags to a program of that name.
fn built(name: &str, flags: &[&str]) -> PathBuf {
    let program = Path::new(env!("CARGO_TARGET_TMPDIR")).join(name);
    let output = compiler()
        .args(flags)
        .arg(host().join("examples/check.c"))
        .args(["-x", "none"])
        .arg(format!("-L{}", env!("ENTITY_RULES_LIB_DIR")))
        .args(["-lentity_rules", "-o"])
        .arg(&program)
        .output()
        .expect("a C compiler");
    assert!(
        output.status.success(),
        "{}",
        String::from_utf8_lossy(&output.stderr)
    );
    program
}

/// Runs the example, which prints what its comment shows.
fn runs(program: &Path) {
    let output = Command::new(program).output().expect("the example runs");
    assert!(output.status.success());
    let printed = String::from_utf8_lossy(&output.stdout).into_owned();
    assert_eq!(
        printed,
        "good: accepted, 9 checks passed\n\
         bad: defect 18 of family 8, detail 3, at entry 5, bad.assert.for_all.that.eq[0], after 8 checks\n\
         bad: '$bar.threded' cannot resolve: '$bar' declares no property 'threded'\n\
         own: accepted, 10 checks passed\n\
         own: entry 6 is always true\n\
         json: accepted, 5 checks passed\n\
         json: {\"assert\":{\"exists\":\"$fields.bars\"}}\n\
         book: 2 read, 1 accepted, 1 with defect 18, 17 checks passed\n\
         wider: a widening\n\
         narrower: none, reason 1, at entry 4 of the old sheet and 0 of the new\n"
    );
    let source = include_str!("../examples/check.c");
    for line in printed.lines() {
        assert!(source.contains(&format!("\n *   {line}\n")), "{line}");
    }
}

#[test]
fn the_c_example_runs() {
    runs(&built("check", &["-std=c99"]));
}

/// Whether the compiler finds nothing amiss with a file, read as C++.
fn is_cpp(file: &Path) -> bool {
    let output = compiler()
        .args(["-fsyntax-only", "-x", "c++"])
        .arg(file)
        .output()
        .expect("a compiler");
    eprint!("{}", String::from_utf8_lossy(&output.stderr));
    output.status.success()
}

#[test]
fn the_header_and_the_library_serve_cpp_too() {
    if !is_cpp(Path::new("/dev/null")) {
        skipped(
            "the_header_and_the_library_serve_cpp_too",
            "`cc` does not compile C++",
        );
        return;
    }
    assert!(is_cpp(&host().join("include/entity_rules.h")));
    runs(&built("check_cpp", &["-x", "c++"]));
}

/// A name of Rust as the header spells it: `CreateSet` as `CREATE_SET`, `Service1` as `SERVICE_1`.
fn spelled(name: &str) -> String {
    let mut spelled = String::new();
    for letter in name.chars() {
        if !spelled.is_empty() && !letter.is_lowercase() {
            spelled.push('_');
        }
        spelled.extend(letter.to_uppercase());
    }
    spelled
}

#[test]
fn the_header_has_the_numbers_of_the_crate() {
    let kinds = Kind::ALL
        .iter()
        .map(|one| (spelled(one.name()), one.number()));
    let semantics = Semantics::ALL
        .iter()
        .map(|one| (spelled(one.name()), one.number()));
    let defects = DefectNumber::ALL
        .iter()
        .map(|one| (format!("DEFECT_{}", spelled(one.name())), one.number()));
    let families = Family::ALL
        .iter()
        .map(|one| (spelled(one.name()), one.number()));
    let readers = Reader::ALL
        .iter()
        .map(|one| (spelled(one.name()), one.number()));
    let refusals = [
        ("SETTING", Refusal::Setting),
        ("LABEL", Refusal::Label),
        ("WIDTH", Refusal::Width),
        ("SCHEMA_SHEET", Refusal::SchemaSheet),
        ("RULE_SHEET", Refusal::RuleSheet),
        ("JSON_FORM", Refusal::JsonForm),
        ("SHEET_LIMIT", Refusal::SheetLimit),
        ("OUTPUT", Refusal::Output),
        ("BOOK_FORM", Refusal::BookForm),
        ("MARK_LIST", Refusal::Marks),
        ("OPENING_LIST", Refusal::Openings),
        ("TABLE_FORM", Refusal::TableForm),
        ("TABLE_MARK", Refusal::TableMark),
        ("MESSAGE_BUFFER", Refusal::Message),
    ];
    let refusals = refusals.map(|(name, one)| (format!("REFUSED_{name}"), one.number()));
    let reasons = BreachReason::ALL
        .iter()
        .map(|one| (spelled(one.name()), one.number()));
    let widenings = [("MARKS", Widening::Marks), ("ANYTHING", Widening::Anything)];
    let widenings = widenings.map(|(name, one)| (format!("WIDENS_{name}"), one.number()));
    let fields = [
        "YEAR",
        "MONTH",
        "DAY",
        "HOUR",
        "MINUTE",
        "SECOND",
        "NANOSECONDS",
    ];
    let fields = fields.into_iter().map(str::to_owned).zip(0..);
    let named = |prefix: &str, all: Vec<(&str, u32)>| {
        let named = |(name, number)| (format!("{prefix}_{}", spelled(name)), number);
        all.into_iter().map(named).collect::<Vec<_>>()
    };
    let sides = Side::ALL.iter().map(|one| (one.name(), one.number()));
    let references = ReferenceFault::ALL
        .iter()
        .map(|one| (one.name(), one.number()));
    let instants = InstantFault::ALL
        .iter()
        .map(|one| (one.name(), one.number()));
    let overs = CollectionFault::ALL
        .iter()
        .map(|one| (one.name(), one.number()));
    let details = [
        named("SIDE", sides.collect()),
        named("REFERENCE", references.collect()),
        named("INSTANT", instants.collect()),
        named("OVER", overs.collect()),
    ];
    let counts = [
        ("NUMBER", 0),
        ("READ", 1),
        ("ACCEPTED", 2),
        ("REFUSED_SCHEMA_SHEET", 3),
        ("REFUSED_RULE_SHEET", 4),
        ("DEFECTS", 5),
        ("PASSED", 17),
    ];
    let counts = counts.map(|(name, index)| (format!("TALLY_{name}"), index));
    let walls = [("WALL_NUMBER".to_owned(), 0), ("WALL_PAGES".to_owned(), 1)];
    let messages = [("MESSAGE_REFUSAL", 8), ("MESSAGE_LENGTH", 9)];
    let messages = messages.map(|(name, index)| (name.to_owned(), index));
    let openings = [
        ("OPENINGS_SET".to_owned(), 1),
        ("OPENINGS_COUNT".to_owned(), 2),
        ("OPENING_ARGUMENTS".to_owned(), 0),
        ("OPENING_RECORD".to_owned(), 1),
    ];
    let counts = counts.into_iter().chain(walls).chain(messages);
    let lengths = [("JSON_LENGTH".to_owned(), 1)];
    let counts = counts.chain(openings).chain(lengths);
    let settings = kinds.chain(semantics).chain(readers);
    let answers = defects.chain(families).chain(refusals);
    let answers = answers
        .chain(reasons)
        .chain(widenings)
        .chain(fields)
        .chain(counts);
    for (name, number) in settings.chain(answers).chain(details.concat()) {
        let line = format!("  ENTITY_RULES_{name} = {number}");
        assert!(
            HEADER
                .lines()
                .any(|other| other.trim_end_matches(',') == line),
            "{line}"
        );
    }
    for (name, number) in [
        ("KEY_BYTES", MAX_KEY_BYTES),
        ("TABLE_BYTES", TABLE_BYTES),
        ("PATH_BYTES", PATH_BYTES),
        ("RESULT_BYTES", RESULT_BYTES),
        ("MARKS_BYTES", MARKS_BYTES),
        ("CHECK_RESULT_BYTES", CHECK_RESULT_BYTES),
        ("EXPLAIN_RESULT_BYTES", EXPLAIN_RESULT_BYTES),
        ("TALLY_BYTES", TALLY_BYTES),
        ("WALL_BYTES", WALL_BYTES),
        ("OPENINGS_BYTES", OPENINGS_BYTES),
        ("JSON_RESULT_BYTES", JSON_RESULT_BYTES),
        ("SHEET_BYTES", MAX_SHEET_BYTES),
        ("OPENING_LIST_BYTES", OPENING_LIST_BYTES),
        ("PAGE_SHEETS", PAGE_SHEETS),
        ("PAGE_BYTES", PAGE_BYTES),
    ] {
        let line = format!("\n#define ENTITY_RULES_{name} {number}\n");
        assert!(HEADER.contains(&line), "{line}");
    }
}

/// The functions that a text declares, each by a line that has this before its name.
fn declared(text: &str, before: &str) -> Vec<String> {
    let names = text.lines().filter_map(|line| line.split_once(before));
    let names = names.filter_map(|(_, rest)| rest.split_once('('));
    let mut names: Vec<_> = names.map(|(name, _)| name.to_owned()).collect();
    names.sort();
    names
}

#[test]
fn the_header_declares_what_the_crate_calls() {
    let mut functions = declared(HEADER, "uint32_t rulecheck_");
    functions.extend(declared(HEADER, "uint64_t rulecheck_"));
    functions.sort();
    let called = include_str!("../src/raw/functions.rs");
    assert_eq!(functions, declared(called, "    rulecheck_"));
    assert_eq!(functions.len(), 17);
    assert!(include_str!("../README.md").contains("declares the seventeen functions"));
}

#[test]
fn the_header_has_the_version_of_the_crate() {
    let line = format!(
        "\n#define ENTITY_RULES_VERSION \"{}\"\n",
        env!("CARGO_PKG_VERSION")
    );
    assert!(HEADER.contains(&line), "{line}");
}

#[test]
fn the_library_has_the_version_of_the_header_and_of_the_crate() {
    let number = entity_rules::raw::version();
    let line = format!("\n#define ENTITY_RULES_VERSION_NUMBER 0x{number:06x}u\n");
    assert!(HEADER.contains(&line), "{line}");
    let [_, major, minor, patch] = number.to_be_bytes();
    assert_eq!(
        format!("{major}.{minor}.{patch}"),
        env!("CARGO_PKG_VERSION")
    );
}
