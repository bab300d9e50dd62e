//! The tool, run in a folder.

use std::fs;
use std::path::{Path, PathBuf};
use std::process::{Command, Output};

/// The folder of the mill's files.
pub fn mill() -> PathBuf {
    Path::new(env!("CARGO_MANIFEST_DIR")).join("examples/mill")
}

/// Runs the tool in a folder, with words parted by blanks.
pub fn run(folder: &Path, line: &str) -> Output {
    Command::new(env!("CARGO_BIN_EXE_entity-rules"))
        .args(line.split_whitespace())
        .current_dir(folder)
        .output()
        .expect("the tool runs")
}

/// The status and what is printed where nothing is said on standard error.
pub fn printed(folder: &Path, line: &str) -> (Option<i32>, String) {
    let output = run(folder, line);
    assert!(output.stderr.is_empty(), "{output:?}");
    let out = String::from_utf8(output.stdout).expect("the tool prints UTF-8");
    (output.status.code(), out)
}

/// A folder of its own for a test, empty at the start.
pub fn folder(name: &str) -> PathBuf {
    let folder = Path::new(env!("CARGO_TARGET_TMPDIR")).join(name);
    let _ = fs::remove_dir_all(&folder);
    fs::create_dir_all(&folder).expect("a folder");
    folder
}
