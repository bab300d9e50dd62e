//! Quantifiers: binders, `in` and the element.

use super::*;

/// Number and detail of a quantifier inside the body of a binder `b` over `$fields.KIND`.
fn inside(field: &str, over: &str) -> (u32, u32) {
    let inner = for_all("c", &string(over), "C,1,1,\n");
    let sheet = rule(&for_all("b", &string(field), &inner));
    let answer = check(&call(2, 3, SCHEMA, &sheet));
    (answer.number, answer.detail)
}

#[test]
fn details_of_22() {
    for (over, expected) in [
        ("$fields.a", (0, 0)),
        ("$fields.m", (0, 0)),
        ("$fields.x", (0, 0)),
        ("$fields.f.x", (0, 0)),
        ("$fields.j", (22, 4)),
        ("$fields.j.any", (0, 0)),
        ("$fields.o.q", (0, 0)),
        ("$fields.u.value", (0, 0)),
        ("$fields.u.kind", (0, 0)),
        ("$fields.s", (22, 4)),
        ("$fields.a.0", (22, 4)),
        ("$fields.x.0", (0, 0)),
        ("$fields.s.count", (22, 3)),
        ("$fields.m.count", (22, 3)),
        ("$fields", (22, 5)),
        ("$id", (22, 5)),
        ("$$fields.a", (22, 5)),
        ("", (22, 5)),
        ("x", (22, 5)),
        ("xfields.a", (22, 5)),
        ("$args.g", (22, 4)),
        ("$args.q", (18, 2)),
    ] {
        let sheet = rule(&for_all("z", &string(over), "C,1,1,\n"));
        let answer = check(&call(2, 2, SCHEMA, &sheet));
        assert_eq!((answer.number, answer.detail), expected, "{over}");
    }
}

#[test]
fn behind_a_binder() {
    for (over, expected) in [
        ("xb.q", (22, 2)),
        ("$b.q", (18, 3)),
        ("xb.s", (22, 4)),
        ("xb.s.t", (22, 3)),
        ("xb.", (22, 2)),
        ("$b.", (18, 1)),
        ("éb", (22, 5)),
        ("$$b", (22, 5)),
    ] {
        assert_eq!(inside("$fields.a", over), expected, "{over}");
    }
    for over in ["$b.", "$b..", "xb.any", "$b.x.y"] {
        assert_eq!(inside("$fields.x", over), (0, 0), "{over}");
    }
    assert_eq!(inside("$fields.m", "$b"), (0, 0));
    assert_eq!(inside("$fields.m", "$b.0"), (0, 0));
    assert_eq!(inside("$fields.m", "$b.count"), (22, 3));
}

#[test]
fn the_member_with_the_empty_name() {
    let schema = "H,0,1,-,0\nF,6,0,1,0,1,-,a\nF,7,0,0,1,0,-,\nF,6,0,0,0,0,-,\n";
    let inner = for_all("c", &string("xb."), "C,1,1,\n");
    let sheet = rule(&for_all("b", &string("$fields.a"), &inner));
    assert_eq!(ask(2, 2, schema, &sheet), "0,0,0,0,0,11,");
}

#[test]
fn a_binder_named_with_a_dollar() {
    let inner = for_all("c", &string("$$b"), &exists("$$b"));
    assert_eq!(
        ask_condition(&for_all("$b", &string("$fields.a"), &inner)),
        "0,0,0,0,0,11,"
    );
}

#[test]
fn what_is_not_a_string() {
    for over in [
        number("1"),
        "V,1,0,\n".into(),
        "V,7,0,\n".into(),
        format!("V,6,1,\n{}", string("$fields.a")),
    ] {
        let answer = check(&call(2, 2, SCHEMA, &rule(&for_all("b", &over, "C,1,1,\n"))));
        assert_eq!((answer.number, answer.detail, answer.place), (22, 1, 2));
    }
}

#[test]
fn binders_win_innermost_first() {
    let inner = for_all("b", &string("$fields.m"), &exists("$b.0"));
    assert_eq!(
        ask_condition(&for_all("b", &string("$fields.a"), &inner)),
        "0,0,0,0,0,13,"
    );
    let inner = for_all("c", &string("$fields.m"), &exists("$b.0"));
    let answer = ask_condition(&for_all("b", &string("$fields.a"), &inner));
    assert_eq!(
        answer,
        "18,8,3,7,5,12,r.assert.for_all.that.for_all.that.exists"
    );
}

#[test]
fn a_bind_is_tested_trimmed_and_matched_untrimmed() {
    assert_eq!(
        ask_condition(&for_all(" b", &string("$fields.a"), &exists("$ b.s"))),
        "0,0,0,0,0,9,"
    );
    let answer = ask_condition(&for_all(" b", &string("$fields.a"), &exists("$b.s")));
    assert_eq!(answer, "18,8,12,5,3,8,r.assert.for_all.that.exists");
    for bind in ["", " ", "\u{3000}", "a.b", "."] {
        assert_eq!(
            ask_condition(&for_all(bind, &string("$fields.a"), "C,1,1,\n")),
            "21,6,0,2,0,4,r.assert.for_all"
        );
    }
}
