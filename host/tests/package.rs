//! The crate as `cargo package` packs it.

use std::path::Path;
use std::process::Command;

/// Runs a command and hands on what it prints.
fn printed(command: &mut Command) -> String {
    let output = command.output().expect("the command runs");
    let told = String::from_utf8_lossy(&output.stderr);
    assert!(output.status.success(), "{told}");
    String::from_utf8(output.stdout).expect("UTF-8")
}

#[test]
fn the_crate_can_be_packed() {
    let folder = Path::new(env!("CARGO_TARGET_TMPDIR")).join("packed");
    let mut cargo = Command::new(env!("CARGO"));
    cargo.args(["package", "--allow-dirty", "--no-verify", "--offline"]);
    printed(
        cargo
            .current_dir(env!("CARGO_MANIFEST_DIR"))
            .arg("--target-dir")
            .arg(&folder),
    );

    let name = concat!("entity-rules-", env!("CARGO_PKG_VERSION"));
    let file = folder.join(format!("package/{name}.crate"));
    let list = printed(Command::new("tar").arg("tzf").arg(file));
    for file in ["build.rs", "build/identity.rs", "include/entity_rules.h"] {
        assert!(list.contains(&format!("{name}/{file}\n")), "{list}");
    }
    // What needs the repository stays there.
    for file in ["pack\n", "tests/", "vectors/", "bench/", "differential/"] {
        assert!(!list.contains(&format!("{name}/{file}")), "{list}");
    }
}
