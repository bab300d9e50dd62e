//! Which library is linked.

use std::fmt;

/// What is known of the library that this crate is linked with.
///
/// ```
/// use entity_rules::identity;
///
/// let linked = identity();
/// assert_eq!(linked.sha256.len(), 64);
/// assert!(linked.to_string().contains(linked.sha256));
/// ```
#[derive(Clone, Copy, Debug, PartialEq, Eq, Hash)]
#[non_exhaustive]
pub struct Identity {
    /// The SHA-256 of the archive, in hexadecimal.
    pub sha256: &'static str,
    /// What the file `IDENTITY` beside it says; none where it was built in this repository, or linked although it has no such file.
    pub packed: Option<Packed>,
}

/// What is known of a library that was packed.
///
/// ```
/// // One that was built in the repository is not packed.
/// if let Some(packed) = entity_rules::identity().packed {
///     assert!(!packed.commit.is_empty());
/// }
/// ```
#[derive(Clone, Copy, Debug, PartialEq, Eq, Hash)]
#[non_exhaustive]
pub struct Packed {
    /// The commit of the repository that was proved.
    pub commit: &'static str,
    /// The toolchain that proved it, with the sum of its logic.
    pub toolchain: &'static str,
    /// The toolchain's verdict.
    pub verdict: &'static str,
}

/// The library that is linked, as it was when this crate was built.
///
/// ```
/// println!("{}", entity_rules::identity());
/// ```
#[must_use]
pub const fn identity() -> Identity {
    let told = (
        option_env!("ENTITY_RULES_COMMIT"),
        option_env!("ENTITY_RULES_TOOLCHAIN"),
        option_env!("ENTITY_RULES_VERDICT"),
    );
    Identity {
        sha256: env!("ENTITY_RULES_SHA256"),
        packed: match told {
            (Some(commit), Some(toolchain), Some(verdict)) => Some(Packed {
                commit,
                toolchain,
                verdict,
            }),
            _ => None,
        },
    }
}

impl fmt::Display for Identity {
    fn fmt(&self, f: &mut fmt::Formatter<'_>) -> fmt::Result {
        write!(f, "libentity_rules.a with the SHA-256 {}", self.sha256)?;
        match self.packed {
            None => f.write_str(", not packed"),
            Some(packed) => packed.fmt(f),
        }
    }
}

impl fmt::Display for Packed {
    fn fmt(&self, f: &mut fmt::Formatter<'_>) -> fmt::Result {
        let Self {
            commit,
            toolchain,
            verdict,
        } = self;
        write!(f, ", of commit {commit}, proved by {toolchain} ({verdict})")
    }
}
