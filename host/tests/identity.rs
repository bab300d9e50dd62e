//! How an archive from another place is identified, and what the crate says about the one that is linked.

#[path = "../build/identity.rs"]
mod identity;
#[path = "../build/sha256.rs"]
mod sha256;

use std::path::Path;
use std::process::Command;

#[test]
fn sums_are_those_of_the_standard() {
    for (text, sum) in [
        (
            "",
            "e3b0c44298fc1c149afbf4c8996fb92427ae41e4649b934ca495991b7852b855",
        ),
        (
            "abc",
            "ba7816bf8f01cfea414140de5dae2223b00361a396177a9cb410ff61f20015ad",
        ),
        (
            "abcdbcdecdefdefgefghfghighijhijkijkljklmklmnlmnomnopnopq",
            "248d6a61d20638b8e5c026930c3e6039a33ce45964ff2167f6ecedd419db06c1",
        ),
    ] {
        assert_eq!(sha256::sum(text.as_bytes()), sum);
    }
    let many = vec![b'a'; 1_000_000];
    let sum = "cdc76e5c9914fb9281a1c7e284d73e67f1809a48a497200e046d39ccc7112cd0";
    assert_eq!(sha256::sum(&many), sum);
}

const ARCHIVE: &[u8] = b"abc";
const IDENTITY: &str = "commit 02e91c9\ntoolchain kit logic 0\nverdict rt: ok, 26 crates proved\n\
    sha256 ba7816bf8f01cfea414140de5dae2223b00361a396177a9cb410ff61f20015ad\n";

#[test]
fn only_the_archive_that_was_packed_is_linked() {
    let known = identity::of(ARCHIVE, Some(IDENTITY), false).expect("an identity");
    assert_eq!(known, identity::Identity::read(IDENTITY));
    assert_eq!(
        known.expect("an identity").verdict,
        "rt: ok, 26 crates proved"
    );

    let refused = |archive, file| identity::of(archive, file, false).expect_err("not linked");
    assert!(
        refused(b"another", Some(IDENTITY)).contains("but the IDENTITY beside it names ba7816bf")
    );
    assert!(refused(ARCHIVE, None).starts_with("there is no IDENTITY beside it"));
    assert!(
        refused(ARCHIVE, Some("commit 1\n")).starts_with("the IDENTITY beside it does not have")
    );
    assert!(refused(ARCHIVE, None).contains("ENTITY_RULES_LINK_UNPROVED_LIBRARY=1 links it"));

    for file in [Some(IDENTITY), None, Some("")] {
        assert_eq!(identity::of(b"another", file, true), Ok(None));
    }
    assert!(
        identity::of(ARCHIVE, Some(IDENTITY), true)
            .expect("linked")
            .is_some()
    );
}

#[test]
fn the_linked_archive_is_named() {
    let archive = Path::new(env!("ENTITY_RULES_LIB_DIR")).join("libentity_rules.a");
    let sum = sha256::sum(&std::fs::read(archive).expect("the archive"));
    assert_eq!(entity_rules::identity().sha256, sum);
    let output = Command::new(env!("CARGO_BIN_EXE_entity-rules"))
        .arg("--version")
        .output()
        .expect("the tool runs");
    let text = String::from_utf8(output.stdout).expect("UTF-8");
    assert!(
        text.starts_with("entity-rules 0.3.0\n  functions 0.3.0\n"),
        "{text}"
    );
    assert!(
        text.contains(&format!("\n  library   SHA-256 {sum}\n")),
        "{text}"
    );
    assert!(text.ends_with(" give the expected answer\n"), "{text}");
    assert!(output.status.success());
}
