//! `--version`: what the tool is, and which library it is linked with.

use super::explain::replayed;
use entity_rules::{identity, raw};

/// The version of the tool and of its crate.
const OWN: &str = env!("CARGO_PKG_VERSION");

/// What is printed, and whether the library is the same version and gives the expected answers.
pub fn text() -> (String, bool) {
    let linked = identity();
    let (functions, is_same) = functions(raw::version());
    let mut lines = vec![format!("entity-rules {OWN}"), functions];
    lines.push(format!("  library   SHA-256 {}", linked.sha256));
    match linked.packed {
        Some(packed) => {
            lines.push(format!("  commit    {}", packed.commit));
            lines.push(format!(
                "  proved    {}, {}",
                packed.toolchain, packed.verdict
            ));
        }
        None => lines.push("  commit    unknown: the library was not packed".to_owned()),
    }
    let (all, differing) = replayed();
    lines.push(match differing.is_empty() {
        true => format!("  examples  all {all} give the expected answer"),
        false => format!(
            "  examples  {} of {all} give a wrong answer: {}. This is not the proved library, or it is another version.",
            differing.len(),
            differing.join(", ")
        ),
    });
    (lines.join("\n") + "\n", is_same && differing.is_empty())
}

/// The line of the library's version, and whether it is that of the crate.
fn functions(number: u32) -> (String, bool) {
    let [_, major, minor, patch] = number.to_be_bytes();
    let version = format!("{major}.{minor}.{patch}");
    match version == OWN {
        true => (format!("  functions {version}"), true),
        false => (
            format!("  functions {version}, not {OWN}: the linked library is another version"),
            false,
        ),
    }
}

#[cfg(test)]
mod tests {
    use super::*;

    #[test]
    fn a_library_of_another_version_is_named() {
        let line = format!("  functions 255.2.3, not {OWN}: the linked library is another version");
        assert_eq!(functions(0x00ff_0203), (line, false));
    }
}
