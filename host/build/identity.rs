//! What is known of an archive: the file `IDENTITY` that `pack` writes beside it.

use crate::sha256;

/// The variable that allows an archive to be linked that is not known to be proved.
pub const ALLOWANCE: &str = "ENTITY_RULES_LINK_UNPROVED_LIBRARY";

/// The lines of the file.
#[derive(Clone, Debug, PartialEq, Eq)]
pub struct Identity {
    /// The commit of the repository that was proved.
    pub commit: String,
    /// What proved it, with the sum of its logic.
    pub toolchain: String,
    /// What it said.
    pub verdict: String,
    /// The sum of the archive.
    pub sha256: String,
}

impl Identity {
    /// Reads the file: a name, a blank and a value on each line.
    pub fn read(text: &str) -> Option<Self> {
        let value = |name: &str| {
            let line = text
                .lines()
                .find_map(|line| line.strip_prefix(name)?.strip_prefix(' '));
            line.map(str::to_owned)
        };
        Some(Self {
            commit: value("commit")?,
            toolchain: value("toolchain")?,
            verdict: value("verdict")?,
            sha256: value("sha256")?,
        })
    }
}

/// The identity of an archive from another place, by the text of its file; none only where that is allowed. An error says why it is not linked.
pub fn of(
    archive: &[u8],
    file: Option<&str>,
    is_allowed: bool,
) -> Result<Option<Identity>, String> {
    let identity = file.and_then(Identity::read);
    let sum = sha256::sum(archive);
    let trouble = match (&identity, file) {
        (Some(identity), _) if identity.sha256 == sum => return Ok(Some(identity.clone())),
        (Some(identity), _) => format!(
            "its SHA-256 is {sum}, but the IDENTITY beside it names {}",
            identity.sha256
        ),
        (None, Some(_)) => {
            "the IDENTITY beside it does not have the lines commit, toolchain, verdict and sha256"
                .to_owned()
        }
        (None, None) => "there is no IDENTITY beside it (host/pack writes one)".to_owned(),
    };
    match is_allowed {
        true => Ok(None),
        false => Err(format!(
            "{trouble}. So it is not known to be proved; {ALLOWANCE}=1 links it anyway"
        )),
    }
}
