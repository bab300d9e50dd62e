//! The program `rulecheck`, run on files that are as long as may be, too long, of another form, and missing.
//!
//! It is the one in the repository's `crates/rulecheck/out`, which `rt run` there and `rt ci` prove and write. What is packed has no tests, so wherever these
//! are, the repository is, and a program that is missing there is a test that fails.

mod support;

use std::fs;
use std::path::Path;
use std::process::{Command, Output};
use support::tool::folder;

/// The longest file that is read.
const MAX_FILE_BYTES: usize = 65_536;

const SCHEMA: &str = "H,0,1,-,0\nF,6,0,1,0,4,-,bars\nF,2,0,0,0,0,-,\n";
const RULE: &str = "R,-,-,\nC,20,1,b\nV,5,12,$fields.bars\nC,12,0,\nV,5,8,$b.count\nV,4,1,9\n";
const LINE: &str = "18,8,9,5,3,9,r.assert.for_all.that.lt[0]\n";

/// The answer to a file whose rule sheet is longer than a sheet may be.
const REFUSED: &str = "5,0,0,0,0,0,\n";

/// What the program prints in a folder of that name, whose `check.in` has these bytes, or that has none.
fn printed(name: &str, file: Option<&[u8]>) -> String {
    let program = Path::new(env!("CARGO_MANIFEST_DIR")).join("../crates/rulecheck/out/rulecheck");
    assert!(
        program.is_file(),
        "{} is missing: `rt run` in crates/rulecheck writes it",
        program.display()
    );
    let folder = folder(name);
    if let Some(bytes) = file {
        fs::write(folder.join("check.in"), bytes).expect("a file");
    }
    let Output {
        status,
        stdout,
        stderr,
    } = Command::new(program)
        .current_dir(folder)
        .output()
        .expect("the program runs");
    assert!(status.success() && stderr.is_empty());
    String::from_utf8(stdout).expect("ASCII")
}

fn check_in(schema: &str, rule: &str) -> String {
    format!("2,2,1,{},{},r\n{schema}{rule}", schema.len(), rule.len())
}

/// A file of that many bytes. Its rule sheet is longer than a sheet may be.
fn file_of_bytes(bytes: usize) -> String {
    let around = check_in(SCHEMA, "").len() + "99999".len() - "0".len();
    let file = check_in(SCHEMA, &"x".repeat(bytes - around));
    assert_eq!(file.len(), bytes);
    file
}

#[test]
fn a_file_is_answered() {
    let file = check_in(SCHEMA, RULE);
    assert_eq!(printed("program_file", Some(file.as_bytes())), LINE);
}

#[test]
fn the_longest_file_is_answered() {
    for bytes in [MAX_FILE_BYTES - 1, MAX_FILE_BYTES] {
        let file = file_of_bytes(bytes);
        assert_eq!(printed("program_longest", Some(file.as_bytes())), REFUSED);
    }
}

/// Of their own form, or the longest file with something after it: a program that reads no byte past the limit would answer the latter.
#[test]
fn a_longer_file_gives_nothing() {
    let longest = file_of_bytes(MAX_FILE_BYTES);
    for file in [
        file_of_bytes(MAX_FILE_BYTES + 1),
        file_of_bytes(99_000),
        format!("{longest}x"),
        longest.repeat(2),
    ] {
        assert_eq!(printed("program_longer", Some(file.as_bytes())), "");
    }
}

#[test]
fn a_file_of_another_form_gives_nothing() {
    let file = check_in(SCHEMA, RULE);
    for other in [
        "",
        "{}",
        &file[1..],
        &file[..file.len() - 1],
        &format!("{file}\n"),
    ] {
        assert_eq!(printed("program_form", Some(other.as_bytes())), "");
    }
}

#[test]
fn no_file_gives_nothing() {
    assert_eq!(printed("program_none", None), "");
}
