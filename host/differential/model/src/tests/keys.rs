//! Keys: one path of the record under each reader.

use super::*;

const KERNEL: u64 = 1;
const PROJECTION: u64 = 2;

fn key<'a>(semantics: u64, reader: u64, path: &'a str) -> KeyCall<'a> {
    KeyCall {
        semantics,
        reader,
        path: path.as_bytes(),
        schema: SCHEMA.as_bytes(),
        scratch_len: SCRATCH_WORDS,
    }
}

/// The detail, 0 where the path can be read; nothing else is answered to a key.
fn detail(semantics: u64, reader: u64, path: &str) -> u32 {
    let answer = check_key(&key(semantics, reader, path));
    let told = match answer.detail {
        0 => "0,0,0,0,0,1,".to_owned(),
        detail => format!("18,0,{detail},0,0,0,"),
    };
    assert_eq!(line(&answer), told, "{path}");
    answer.detail
}

#[test]
fn a_text_has_no_length_for_a_projection() {
    for (path, kernel, projection) in [
        ("s.count", 0, 13),
        ("s.count.x", 6, 13),
        ("s.count.", 6, 13),
        ("s.count.count", 6, 13),
        ("a.0.s.count", 0, 13),
        ("s.countx", 10, 10),
        ("s.", 1, 1),
        ("s..count", 1, 1),
        ("s", 0, 0),
    ] {
        assert_eq!(detail(2, KERNEL, path), kernel, "{path}");
        assert_eq!(detail(2, PROJECTION, path), projection, "{path}");
    }
}

#[test]
fn under_kernel_1_the_readers_do_not_differ() {
    for (path, expected) in [
        ("s.count", 10),
        ("s.count.x", 10),
        ("a.count", 10),
        ("f.q", 3),
        ("o.q.r", 0),
    ] {
        for reader in [KERNEL, PROJECTION] {
            assert_eq!(detail(1, reader, path), expected, "{path}");
        }
    }
}

#[test]
fn every_other_detail_is_that_of_a_reference() {
    for (path, expected) in [
        ("", 1),
        (".", 1),
        (".s", 1),
        ("q", 2),
        ("q.", 2),
        ("g", 2),
        ("$fields.s", 2),
        ("f.q", 3),
        ("a.s", 4),
        ("a.01", 4),
        ("m.s", 5),
        ("a.count", 0),
        ("m.count", 0),
        ("m.count.x", 6),
        ("u.kind.x", 7),
        ("u.value.x", 0),
        ("v.content.x", 0),
        ("u.count", 8),
        ("n.count", 9),
        ("n.count.x", 9),
        ("n.x", 10),
        ("s.x", 10),
        ("j.count.x", 0),
    ] {
        for (semantics, reader) in [(2, KERNEL), (3, PROJECTION), (4, PROJECTION)] {
            assert_eq!(detail(semantics, reader, path), expected, "{path}");
        }
    }
}

#[test]
fn a_key_is_a_reference_without_its_root() {
    for path in ["s.count", "s.count.x", "q", "", "a.0.q", "f.x.0..", "u.x"] {
        for semantics in 1..=4 {
            let sheet = rule(&exists(&format!("$fields.{path}")));
            let whole = check(&call(1, semantics, SCHEMA, &sheet));
            assert_eq!(detail(semantics, KERNEL, path), whole.detail, "{path}");
        }
    }
}

#[test]
fn an_open_record_has_every_key() {
    for path in ["x", "x..", "count.count"] {
        let call = KeyCall {
            schema: b"H,1,0,-,0\n",
            ..key(2, PROJECTION, path)
        };
        assert_eq!(line(&check_key(&call)), "0,0,0,0,0,1,", "{path}");
    }
}

#[test]
fn refusals_stand_in_their_order() {
    let mut call = key(4, PROJECTION, "s");
    call.schema = b"";
    assert_eq!(line(&check_key(&call)), "4,0,0,0,0,0,");
    call.scratch_len = SCRATCH_WORDS - 1;
    assert_eq!(line(&check_key(&call)), "3,0,0,0,0,0,");
    call.path = b"\xFF";
    assert_eq!(line(&check_key(&call)), "2,0,0,0,0,0,");
    call.reader = 3;
    assert_eq!(line(&check_key(&call)), "1,0,0,0,0,0,");
}

#[test]
fn settings_and_lengths() {
    let past_32_bits = 1 << 32;
    for number in [0, 3, 5, past_32_bits + 1, u64::MAX] {
        assert_eq!(check_key(&key(2, number, "s")).number, 1);
    }
    for semantics in [0, 5, past_32_bits + 1, u64::MAX] {
        assert_eq!(check_key(&key(semantics, KERNEL, "s")).number, 1);
    }
    let long = "l".repeat(513);
    assert_eq!(check_key(&key(2, KERNEL, &long)).number, 2);
    assert_eq!(detail(2, KERNEL, &long[1..]), 2);
}
