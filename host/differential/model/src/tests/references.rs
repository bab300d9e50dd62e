//! References and their details.

use super::*;

/// The detail of 18 for one reference, 0 where it passes.
fn detail(kind: u64, semantics: u64, schema: &str, text: &str) -> u32 {
    let sheet = rule(&exists(text));
    let answer = check(&call(kind, semantics, schema, &sheet));
    assert!(matches!(answer.number, 0 | 18), "{text}");
    answer.detail
}

/// References under kind 2 and service/1 against `SCHEMA`, and the details they give.
const SERVICE: [(&str, u32); 50] = [
    ("$fields.s", 0),
    ("$fields.", 1),
    ("$fields..s", 1),
    ("$fields.f.", 1),
    ("$fields.s.", 1),
    ("$fields.j.", 1),
    ("$fields.q", 2),
    ("$fields.q.", 2),
    ("$args.q", 2),
    ("$args.g", 0),
    ("$fields.f.q", 3),
    ("$fields.f.count", 3),
    ("$fields.f.x.0", 0),
    ("$fields.f.x.0.any.thing", 0),
    ("$fields.f.x.0..", 0),
    ("$fields.a.s", 4),
    ("$fields.a.0.s.count", 0),
    ("$fields.a.0.q", 3),
    ("$fields.m.s", 5),
    ("$fields.m.0", 5),
    ("$fields.m.count", 0),
    ("$fields.m.count.x", 6),
    ("$fields.a.count.", 6),
    ("$fields.s.count.x", 6),
    ("$fields.u.kind", 0),
    ("$fields.u.kind.x", 7),
    ("$fields.u.value.x.y", 0),
    ("$fields.u.other", 8),
    ("$fields.u.count", 8),
    ("$fields.n.count", 9),
    ("$fields.n.count.x", 9),
    ("$fields.b.count", 9),
    ("$fields.e.count", 9),
    ("$fields.n.x", 10),
    ("$fields.s.x", 10),
    ("$fields.s.0", 10),
    ("$fields.j.count.x", 0),
    ("$fields.o.q.r", 0),
    ("$fields.o.p.q", 10),
    ("$fields.o.", 1),
    ("$state", 12),
    ("$state.x", 12),
    ("$id.x", 12),
    ("$", 12),
    ("$.x", 12),
    ("$field", 12),
    ("$fields2.s", 12),
    ("$old_fields.s", 0),
    ("$old_fields.q", 2),
    ("$args", 0),
];

#[test]
fn details_under_service() {
    for (text, expected) in SERVICE {
        assert_eq!(detail(2, 2, SCHEMA, text), expected, "{text}");
    }
}

#[test]
fn under_kernel_only_objects_and_json_have_members() {
    for (text, expected) in [
        ("$fields.a.count", 10),
        ("$fields.a.0", 10),
        ("$fields.m.count", 10),
        ("$fields.s.count", 10),
        ("$fields.u.kind", 10),
        ("$fields.n.count", 10),
        ("$fields.f.q", 3),
        ("$fields.f.x", 0),
        ("$fields.j.q.r", 0),
        ("$fields.o.q", 0),
        ("$fields.a.", 1),
    ] {
        assert_eq!(detail(1, 1, SCHEMA, text), expected, "{text}");
    }
}

#[test]
fn order_at_a_root() {
    let bare = "H,0,0,-,0\n";
    assert_eq!(detail(1, 2, bare, "$args."), 11);
    assert_eq!(detail(2, 2, bare, "$args."), 11);
    assert_eq!(detail(2, 2, bare, "$args"), 0);
    assert_eq!(detail(1, 2, bare, "$args"), 12);
    assert_eq!(detail(2, 2, bare, "$fields."), 1);
    assert_eq!(detail(6, 2, bare, "$fields."), 11);
    assert_eq!(detail(7, 2, bare, "$fields"), 12);
    assert_eq!(detail(1, 2, bare, "$old_fields.x"), 11);
    assert_eq!(detail(1, 2, "H,1,0,-,0\n", "$fields.x..y"), 0);
    assert_eq!(detail(1, 2, "H,1,0,-,0\n", "$fields..y"), 1);
    assert_eq!(detail(2, 2, "H,0,0,1,0\n", "$args.x"), 0);
}

#[test]
fn which_kind_reads_which_name() {
    let table = [
        ("$id", "11111111"),
        ("$entity", "11111111"),
        ("$version", "11111111"),
        ("$fields", "11111001"),
        ("$state", "10110011"),
        ("$to_state", "01110011"),
        ("$from_state", "01011000"),
        ("$args", "01011111"),
        ("$old_fields", "01010000"),
        ("$other", "00000000"),
    ];
    for (name, marks) in table {
        for (kind, mark) in (1..).zip(marks.bytes()) {
            let expected = if mark == b'1' { 0 } else { 12 };
            assert_eq!(
                detail(kind, 1, "H,0,0,-,0\n", name),
                expected,
                "{name} under {kind}"
            );
        }
    }
}

#[test]
fn names_with_dots_are_not_reached() {
    let schema = "H,0,2,-,0\nF,7,0,0,0,1,-,a\nF,1,0,0,0,3,-,a.b\n";
    assert_eq!(detail(1, 2, schema, "$fields.a.b"), 3);
}

#[test]
fn a_tag_may_be_called_count() {
    let schema = "H,0,1,-,0\nF,11,0,0,0,1,5,ucount\n";
    assert_eq!(detail(1, 2, schema, "$fields.u.count"), 0);
    assert_eq!(detail(1, 2, schema, "$fields.u.count.x"), 7);
    assert_eq!(detail(1, 2, schema, "$fields.u.value.x"), 0);
}
