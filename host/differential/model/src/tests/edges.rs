//! The edges that docs/FORMAT.md lists, and their neighbours.

use super::*;

#[test]
fn depth_32_passes_and_33_does_not() {
    assert_eq!(ask_condition(&nots(31, "C,1,1,\n")), "0,0,0,0,0,35,");
    assert_eq!(
        ask_condition(&nots(32, "C,1,1,\n")),
        "13,4,0,2,0,2,r.assert"
    );
}

#[test]
fn empty_all_has_depth_1() {
    assert_eq!(ask_condition("C,2,0,\n"), "16,1,0,2,0,4,r.assert");
    let deep = format!("16,1,0,33,0,35,r.assert{}", ".not".repeat(31));
    assert_eq!(ask_condition(&nots(31, "C,2,0,\n")), deep);
    assert_eq!(
        ask_condition(&nots(32, "C,2,0,\n")),
        "13,4,0,2,0,2,r.assert"
    );
}

#[test]
fn fields_bound_as_fields_passes_under_kind_6() {
    let sheet = rule(&for_all("fields", &string("$args.g"), &exists("$fields")));
    let schema = "H,0,0,0,1\nF,6,0,0,0,1,-,g\n";
    assert_eq!(ask(6, 2, schema, &sheet), "0,0,0,0,0,9,");
    let sheet = rule(&for_all("other", &string("$args.g"), &exists("$fields")));
    assert_eq!(
        ask(6, 2, schema, &sheet),
        "18,8,12,5,3,8,r.assert.for_all.that.exists"
    );
}

#[test]
fn over_the_binder_by_any_first_byte_passes() {
    for over in ["xb", "bb", "$b"] {
        let inner = for_all("c", &string(over), &exists("$c.no.such.path"));
        let answer = ask_condition(&for_all("b", &string("$fields.a"), &inner));
        let passed = if over == "$b" { 13 } else { 12 };
        assert_eq!(answer, format!("0,0,0,0,0,{passed},"), "{over}");
    }
    let inner = for_all("c", &string("éb"), "C,1,1,\n");
    let answer = ask_condition(&for_all("b", &string("$fields.a"), &inner));
    assert_eq!(answer, "22,7,5,4,0,9,r.assert.for_all.that.for_all");
}

#[test]
fn count_of_an_array_is_no_collection() {
    let answer = ask_condition(&for_all("b", &string("$fields.a.count"), "C,1,1,\n"));
    assert_eq!(answer, "22,7,3,2,0,6,r.assert.for_all");
}

#[test]
fn leap_days_and_escaped_instants() {
    let before = |text: &str| ask_condition(&operator(6, &[&string(text), &string("$id")]));
    assert_eq!(before("2024-02-29"), "0,0,0,0,0,7,");
    assert_eq!(before("2023-02-29"), "20,1,2,3,0,4,r.assert.before[0]");
    assert_eq!(before("$$2024-01-01"), "20,1,1,3,0,4,r.assert.before[0]");
    assert_eq!(before(" $id"), "20,1,2,3,0,4,r.assert.before[0]");
}

#[test]
fn ordinals() {
    assert_eq!(ask_condition(&exists("$fields.a.0.s")), "0,0,0,0,0,5,");
    assert_eq!(
        ask_condition(&exists(&format!("$fields.a.1{}.s", "0".repeat(400)))),
        "0,0,0,0,0,5,"
    );
    for segment in ["01", "00", "+1", "-0", "1x", "٣"] {
        assert_eq!(
            ask_condition(&exists(&format!("$fields.a.{segment}"))),
            "18,1,4,3,0,4,r.assert.exists",
            "{segment}"
        );
    }
}

#[test]
fn tag_value_then_content() {
    assert_eq!(ask_condition(&exists("$fields.v.value")), "0,0,0,0,0,5,");
    assert_eq!(
        ask_condition(&exists("$fields.v.value.x")),
        "18,1,7,3,0,4,r.assert.exists"
    );
    assert_eq!(
        ask_condition(&exists("$fields.v.content.x")),
        "0,0,0,0,0,5,"
    );
    assert_eq!(
        ask_condition(&exists("$fields.u.content")),
        "18,1,8,3,0,4,r.assert.exists"
    );
}
