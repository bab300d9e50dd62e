//! Links the static library `libentity_rules.a`: from the folder that `ENTITY_RULES_LIB_DIR` names, else from the repository's `crates/entity_rules/out`.

use std::path::{Path, PathBuf};
use std::{env, process};

const ARCHIVE: &str = "libentity_rules.a";
const VARIABLE: &str = "ENTITY_RULES_LIB_DIR";

fn main() {
    println!("cargo:rerun-if-env-changed={VARIABLE}");
    let own = Path::new(env!("CARGO_MANIFEST_DIR")).join("../../../crates/entity_rules/out");
    let folder = env::var_os(VARIABLE).map_or(own, PathBuf::from);
    let Some(archive) = folder.join(ARCHIVE).canonicalize().ok().filter(|archive| archive.is_file()) else {
        eprintln!("no {ARCHIVE} in {}: run `rt lib` in crates/entity_rules, or set {VARIABLE} to its folder", folder.display());
        process::exit(1);
    };
    println!("cargo:rerun-if-changed={}", archive.display());
    println!("cargo:rustc-link-search=native={}", archive.with_file_name("").display());
    println!("cargo:rustc-link-lib=static=entity_rules");
}
