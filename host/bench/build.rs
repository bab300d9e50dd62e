//! Links the static libraries: those that `run` has built, or those of the folder ENTITY_RULES_LIB_DIR.

use std::path::{Path, PathBuf};

fn main() {
    println!("cargo:rerun-if-env-changed=ENTITY_RULES_LIB_DIR");
    let built = |name: &str| Path::new(env!("CARGO_MANIFEST_DIR")).join("../../crates").join(name).join("out");
    let given = std::env::var_os("ENTITY_RULES_LIB_DIR").map(PathBuf::from);
    link("entity_rules", &given.unwrap_or_else(|| built("entity_rules")));
    link("sheet_acceptance", &built("sheet_acceptance"));
}

fn link(name: &str, folder: &Path) {
    println!("cargo:rustc-link-search=native={}", folder.display());
    println!("cargo:rustc-link-lib=static={name}");
    println!("cargo:rerun-if-changed={}", folder.join(format!("lib{name}.a")).display());
}
