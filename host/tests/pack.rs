//! What `pack` writes, by a stand-in for `rt`, which would prove the library.

#[path = "../build/identity.rs"]
mod identity;
#[path = "../build/sha256.rs"]
mod sha256;
mod support;

use std::ffi::OsStr;
use std::fs;
use std::os::unix::fs::PermissionsExt;
use std::path::{Path, PathBuf};
use std::process::{Command, Output};
use support::tool::folder;

const RT: &str = r#"#!/bin/sh
case "$1" in
  lib) mkdir -p out && echo archive >out/libentity_rules.a ;;
  verdict) echo "logic=proved functions=26 logic-built=trusted" ;;
  version) echo "kit logic 0" ;;
esac
"#;

/// Runs a command in a folder. What the environment has for git is about another repository.
fn run(program: impl AsRef<OsStr>, arguments: &[&str], folder: &Path) -> Output {
    let mut command = Command::new(program);
    for (name, _) in std::env::vars_os() {
        if name.as_encoded_bytes().starts_with(b"GIT_") {
            command.env_remove(name);
        }
    }
    let path = std::env::var("PATH").expect("a path");
    command
        .env("PATH", format!("{}/bin:{path}", folder.display()))
        .args(arguments)
        .current_dir(folder)
        .output()
        .expect("the command runs")
}

/// A repository with what `pack` reads, committed.
fn repository(name: &str) -> PathBuf {
    let root = folder(name);
    let host = Path::new(env!("CARGO_MANIFEST_DIR"));
    for below in ["host/include", "bin", "crates/entity_rules"] {
        fs::create_dir_all(root.join(below)).expect("a folder");
    }
    for file in ["pack", "Cargo.toml", "include/entity_rules.h"] {
        fs::copy(host.join(file), root.join("host").join(file)).expect("a copy");
    }
    fs::write(root.join("crates.txt"), "entity_rules:\n").expect("a file");
    let rt = root.join("bin/rt");
    fs::write(&rt, RT).expect("a file");
    fs::set_permissions(rt, fs::Permissions::from_mode(0o755)).expect("a program");
    let own = ["-c", "user.name=test", "-c", "user.email=test"];
    for words in [
        ["init", "-q"].as_slice(),
        &["add", "."],
        &["commit", "-q", "-m", "sample"],
    ] {
        let output = run("git", &[own.as_slice(), words].concat(), &root);
        assert!(output.status.success(), "{output:?}");
    }
    root
}

#[test]
fn what_is_packed_is_linked() {
    let root = repository("pack");
    let output = run(root.join("host/pack"), &["packed"], &root);
    assert!(output.status.success(), "{output:?}");
    let packed = |file: &str| fs::read(root.join("packed").join(file)).expect(file);
    let header = fs::read(root.join("host/include/entity_rules.h")).expect("a header");
    assert_eq!(packed("entity_rules.h"), header);
    let version = format!("\nVersion: {}\n", env!("CARGO_PKG_VERSION"));
    let settings = String::from_utf8(packed("entity_rules.pc")).expect("UTF-8");
    assert!(settings.contains(&version), "{settings}");

    let text = String::from_utf8(packed("IDENTITY")).expect("UTF-8");
    let known = identity::of(&packed("libentity_rules.a"), Some(&text), false);
    let known = known.expect("linked").expect("an identity");
    let commit = run("git", &["rev-parse", "HEAD"], &root).stdout;
    assert_eq!(known.commit.as_bytes(), commit.trim_ascii_end());
    assert_eq!(known.toolchain, "kit logic 0");
    assert_eq!(
        known.verdict,
        "logic=proved functions=26 logic-built=trusted"
    );
}

#[test]
fn nothing_is_packed_that_differs_from_the_commit() {
    let root = repository("pack-changed");
    for file in [
        "host/include/entity_rules.h",
        "host/Cargo.toml",
        "crates.txt",
    ] {
        let before = fs::read(root.join(file)).expect(file);
        fs::write(root.join(file), [&before[..], b"\n"].concat()).expect(file);
        let output = run(root.join("host/pack"), &["packed"], &root);
        let told = String::from_utf8_lossy(&output.stderr);
        assert_eq!(output.status.code(), Some(2));
        assert!(
            told.contains("commit these first") && told.contains(file),
            "{told}"
        );
        assert!(!root.join("packed/IDENTITY").exists());
        fs::write(root.join(file), before).expect(file);
    }
}
