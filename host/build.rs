//! Finds the static library `libentity_rules.a`, checks a packed one against `IDENTITY`, and links it.
//!
//! It is taken from the folder that `ENTITY_RULES_LIB_DIR` names by an absolute path, where `IDENTITY` must have that archive's SHA-256. Without that
//! variable it is the one in the repository's `crates/entity_rules/out`, where `rt lib` proves and writes it if it is missing.

#[path = "build/identity.rs"]
mod identity;
#[path = "build/sha256.rs"]
mod sha256;

use identity::{ALLOWANCE, Identity};
use std::env;
use std::fs::{self, File};
use std::io::{BufRead, BufReader, Write};
use std::path::{Path, PathBuf};
use std::process::{Child, Command, ExitStatus, Stdio, exit};

const ARCHIVE: &str = "libentity_rules.a";
const VARIABLE: &str = "ENTITY_RULES_LIB_DIR";

fn main() {
    for variable in [VARIABLE, ALLOWANCE] {
        println!("cargo:rerun-if-env-changed={variable}");
    }
    let target = env::var("CARGO_CFG_TARGET_ARCH").unwrap_or_default();
    if target != "x86_64" {
        stop(&format!(
            "the library is compiled for x86-64, and this builds for {target}"
        ));
    }
    let (folder, identity) = match env::var_os(VARIABLE) {
        Some(folder) => given(PathBuf::from(folder)),
        None => (of_the_repository(), None),
    };
    println!("cargo:rerun-if-changed={}", folder.join(ARCHIVE).display());
    println!("cargo:rustc-link-search=native={}", folder.display());
    println!("cargo:rustc-link-lib=static=entity_rules");
    println!("cargo:rustc-env={VARIABLE}={}", folder.display());
    hand_on(&archive(&folder), identity);
}

fn stop(message: &str) -> ! {
    eprintln!("entity-rules: {message}");
    exit(1);
}

fn archive(folder: &Path) -> Vec<u8> {
    let file = folder.join(ARCHIVE);
    fs::read(&file)
        .unwrap_or_else(|error| stop(&format!("{} cannot be read: {error}", file.display())))
}

/// Hands on to the crate what is linked.
fn hand_on(archive: &[u8], identity: Option<Identity>) {
    println!(
        "cargo:rustc-env=ENTITY_RULES_SHA256={}",
        sha256::sum(archive)
    );
    if let Some(identity) = identity {
        println!("cargo:rustc-env=ENTITY_RULES_COMMIT={}", identity.commit);
        println!(
            "cargo:rustc-env=ENTITY_RULES_TOOLCHAIN={}",
            identity.toolchain
        );
        println!("cargo:rustc-env=ENTITY_RULES_VERDICT={}", identity.verdict);
    }
}

/// The folder of the variable; it must hold the archive, and the `IDENTITY` of it.
fn given(folder: PathBuf) -> (PathBuf, Option<Identity>) {
    let hint = match folder.is_relative() {
        true => format!(
            " (a relative path is taken from {}; expected an absolute path)",
            env!("CARGO_MANIFEST_DIR")
        ),
        false => String::new(),
    };
    let folder = folder.canonicalize().unwrap_or(folder);
    let shown = folder.display();
    if !folder.join(ARCHIVE).is_file() {
        stop(&format!(
            "{VARIABLE} names {shown}, which has no {ARCHIVE}{hint}"
        ));
    }
    let file = folder.join("IDENTITY");
    println!("cargo:rerun-if-changed={}", file.display());
    let text = fs::read_to_string(file).ok();
    let is_allowed = env::var_os(ALLOWANCE).is_some_and(|value| value == "1");
    match identity::of(&archive(&folder), text.as_deref(), is_allowed) {
        Ok(identity) => (folder, identity),
        Err(trouble) => stop(&format!("{shown}/{ARCHIVE} is not linked: {trouble}.")),
    }
}

/// The repository's own folder; the archive is built where it is missing.
fn of_the_repository() -> PathBuf {
    let root = Path::new(env!("CARGO_MANIFEST_DIR")).join("..");
    let root = root.canonicalize().unwrap_or(root);
    if !root.join("crates.txt").is_file() {
        stop(&format!(
            "this crate is not in its repository, where the library would be. Set {VARIABLE} to the folder of a {ARCHIVE} that `host/pack` has packed."
        ));
    }
    let library = root.join("crates/entity_rules");
    let folder = library.join("out");
    match fs::metadata(folder.join(ARCHIVE)).and_then(|archive| archive.modified()) {
        Err(_) => build(&library, &folder),
        Ok(built) => {
            let sources = sources(&root.join("crates"));
            for folder in &sources {
                println!("cargo:rerun-if-changed={}", folder.display());
            }
            if let Some(file) = sources.iter().find_map(|folder| newer(folder, built)) {
                println!(
                    "cargo:warning={ARCHIVE} is older than {}: run `rt lib` in {}",
                    file.display(),
                    library.display()
                );
            }
        }
    }
    folder
}

/// The folders of the crates' sources; beside them is `out`, which `rt` writes.
fn sources(crates: &Path) -> Vec<PathBuf> {
    let entries = fs::read_dir(crates).into_iter().flatten().flatten();
    let folders = ["src", "specs", "proofs"];
    let mut paths: Vec<PathBuf> = entries
        .flat_map(|entry| folders.map(|name| entry.path().join(name)))
        .filter(|path| path.is_dir())
        .collect();
    paths.sort();
    paths
}

/// A source of the library that is newer than its archive.
fn newer(folder: &Path, built: std::time::SystemTime) -> Option<PathBuf> {
    let entries = fs::read_dir(folder).ok()?.flatten();
    let mut paths: Vec<PathBuf> = entries.map(|entry| entry.path()).collect();
    paths.sort();
    paths.into_iter().find_map(|path| {
        if path.is_dir() {
            return newer(&path, built);
        }
        let is_source = path
            .extension()
            .is_some_and(|end| end == "rt" || end == "antt");
        let changed = fs::metadata(&path).and_then(|file| file.modified()).ok()?;
        (is_source && changed > built).then_some(path)
    })
}

fn build(library: &Path, folder: &Path) {
    let other_ways = format!(
        "Set {VARIABLE} to the folder of a {ARCHIVE} that `host/pack` has packed, or run `rt lib` in {}.",
        library.display()
    );
    println!("cargo:rerun-if-env-changed=PATH");
    let child = Command::new("rt")
        .arg("lib")
        .current_dir(library)
        .stdout(Stdio::piped())
        .spawn();
    match child.and_then(shown) {
        Err(error) => stop(&format!(
            "{} is missing, and `rt`, which would build it, cannot be run ({error}). {other_ways}",
            folder.join(ARCHIVE).display()
        )),
        Ok(status) if !status.success() || !folder.join(ARCHIVE).is_file() => {
            stop(&format!(
                "`rt lib` did not write {ARCHIVE} ({status}). {other_ways}"
            ));
        }
        Ok(_) => {}
    }
}

/// Waits for the proof. Cargo keeps back what a build script prints, so each line goes to the terminal too, if there is one.
fn shown(mut child: Child) -> std::io::Result<ExitStatus> {
    let mut terminal = File::options().write(true).open("/dev/tty").ok();
    let mut show = |line: &str| {
        eprintln!("{line}");
        if let Some(terminal) = &mut terminal {
            let _ = writeln!(terminal, "entity-rules: {line}");
        }
    };
    show("proving the library by `rt lib`; from nothing this takes some minutes");
    if let Some(output) = child.stdout.take() {
        for line in BufReader::new(output).lines() {
            show(&line?);
        }
    }
    child.wait()
}
