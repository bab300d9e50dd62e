//! The mill's sheets in files are what the builders write.

#[path = "../examples/mill/sheets.rs"]
mod sheets;

use entity_rules::rule_from_json;
use std::fs;
use std::path::{Path, PathBuf};

fn folder() -> PathBuf {
    Path::new(env!("CARGO_MANIFEST_DIR")).join("examples/mill")
}

#[test]
fn the_files_are_what_the_builders_write() {
    let folder = folder();
    for (name, sheet) in sheets::files().expect("sheets within the limits") {
        assert_eq!(
            fs::read(folder.join(name)).expect("a file"),
            sheet,
            "{name}"
        );
    }
}

#[test]
fn the_rules_in_json_are_those_of_the_sheets() {
    for rule in ["release", "misspelt"] {
        let read = |end: &str| fs::read(folder().join(format!("{rule}.{end}"))).expect("a file");
        let sheet = rule_from_json(read("json")).map(Vec::from);
        assert_eq!(sheet, Ok(read("rule")), "{rule}");
    }
}
