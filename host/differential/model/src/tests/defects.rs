//! Number, family, place, over place, passed count and path of every kind of defect.

use super::*;

#[test]
fn name_and_message() {
    assert_eq!(ask(1, 1, SCHEMA, "R,1,1,  C,1,1,\n"), "5,0,0,0,0,0,");
    assert_eq!(ask(1, 1, SCHEMA, "R,1,1,  \nC,1,1,\n"), "11,1,0,1,0,0,r");
    assert_eq!(ask(1, 1, SCHEMA, "R,1,0,x\nC,1,1,\n"), "12,1,0,1,0,1,r");
    assert_eq!(ask(1, 1, SCHEMA, "R,0,-,\nC,1,1,\n"), "11,1,0,1,0,0,r");
    assert_eq!(ask(1, 1, SCHEMA, "R,1,2,xyz\nC,1,1,\n"), "0,0,0,0,0,4,");
}

#[test]
fn literals_come_before_the_body_and_stay_family_1() {
    let list = format!("V,6,2,\n{}{}", number("1"), number("1e309"));
    let body = operator(8, &[&string("$nope"), &list]);
    assert_eq!(
        ask_condition(&for_all("b.", &string("$nope"), &body)),
        "14,1,0,8,0,4,r.assert.for_all.that.eq[1][1]"
    );
    let object = format!("V,7,1,\nK,3,k.k\n{}", number("-1e999"));
    assert_eq!(
        ask_condition(&operator(19, &[&object])),
        "14,1,0,5,0,3,r.assert.truthy.k.k"
    );
    let compare = format!("C,18,1,\n{}{}", number("1"), number("2e308"));
    assert_eq!(
        ask_condition(&compare),
        "14,1,0,4,0,4,r.assert.compare.right"
    );
}

#[test]
fn where_no_literal_is_looked_at() {
    let huge = number("1e309");
    let kernel = rule(&operator(8, &[&huge, &huge]));
    assert_eq!(ask(2, 1, SCHEMA, &kernel), "0,0,0,0,0,4,");
    assert_eq!(ask_condition(&operator(5, &[&huge])), "0,0,0,0,0,4,");
    assert_eq!(
        ask_condition(&for_all("b", &huge, "C,1,1,\n")),
        "22,7,1,2,0,5,r.assert.for_all"
    );
    assert_eq!(
        ask_condition(&operator(16, &[&huge, &string("")])),
        "19,1,0,3,0,4,r.assert.starts_with[0]"
    );
    assert_eq!(
        ask_condition(&operator(7, &[&huge, &string("")])),
        "20,1,2,3,0,4,r.assert.after[0]"
    );
}

#[test]
fn operators_of_the_service() {
    for (op, name) in [
        (18, "compare"),
        (19, "truthy"),
        (20, "for_all"),
        (21, "for_any"),
    ] {
        let condition = match op {
            18 => format!("C,18,6,\n{}{}", number("1"), number("1")),
            19 => operator(19, &[&number("1")]),
            _ => format!("C,{op},1,b\n{}C,1,0,\n", string("$fields.a")),
        };
        let sheet = rule(&many(3, &["C,1,0,\n", &condition]));
        assert_eq!(
            ask(2, 1, SCHEMA, &sheet),
            "15,3,0,4,0,6,r.assert.any[1]",
            "{name}"
        );
        assert_eq!(check(&call(2, 4, SCHEMA, &sheet)).number, 0, "{name}");
    }
}

#[test]
fn compare_sides() {
    let array = "V,6,1,\nV,5,1,$\n";
    let left = format!("C,18,1,\n{array}{}", string("$id"));
    assert_eq!(ask_condition(&left), "17,5,1,3,0,4,r.assert");
    let right = format!("C,18,1,\n{}{array}", string("$id"));
    assert_eq!(ask_condition(&right), "17,5,2,4,0,6,r.assert");
    let object = format!("C,18,1,\n{}V,7,0,\n", string("$nope"));
    assert_eq!(
        ask_condition(&object),
        "18,1,12,3,0,5,r.assert.compare.left"
    );
    let in_body = for_all("b", &string("$fields.a"), &right);
    assert_eq!(
        ask_condition(&in_body),
        "17,5,2,6,0,10,r.assert.for_all.that"
    );
}

#[test]
fn affixes_ask_for_references_first() {
    let array = format!("V,6,1,\n{}", string("$nope"));
    assert_eq!(
        ask_condition(&operator(17, &[&string("$id"), &array])),
        "18,1,12,5,0,6,r.assert.ends_with[1][0]"
    );
    let array = format!("V,6,1,\n{}", string("$id"));
    assert_eq!(
        ask_condition(&operator(17, &[&string("$id"), &array])),
        "19,1,0,4,0,7,r.assert.ends_with[1]"
    );
}

#[test]
fn only_family_1_becomes_8() {
    let within = |body: &str| ask_condition(&for_all("b", &string("$fields.a"), body));
    let prefix = "r.assert.for_all.that";
    assert_eq!(within("C,3,0,\n"), format!("16,8,0,4,3,8,{prefix}"));
    assert_eq!(
        within(&operator(16, &[&number("1"), &number("2")])),
        format!("19,8,0,5,3,8,{prefix}.starts_with[0]")
    );
    assert_eq!(
        within(&operator(7, &[&string("$b.s"), &number("2")])),
        format!("20,8,2,6,3,10,{prefix}.after[1]")
    );
    assert_eq!(
        within(&for_all("", &string("x"), "C,1,1,\n")),
        format!("21,6,0,4,0,8,{prefix}.for_all")
    );
    assert_eq!(
        within(&for_all("c", &string("x"), "C,1,1,\n")),
        format!("22,7,5,4,0,9,{prefix}.for_all")
    );
    assert_eq!(
        within(&for_all("c", &string("$b.q"), "C,1,1,\n")),
        format!("18,8,3,5,3,9,{prefix}.for_all.in")
    );
    let first = for_all("b", &string("$fields.q"), "C,1,1,\n");
    assert_eq!(ask_condition(&first), "18,1,2,3,0,5,r.assert.for_all.in");
}

#[test]
fn template_kinds_keep_18_in_family_2() {
    let sheet = rule(&for_all("b", &string("$fields.a"), &exists("$b.q")));
    assert_eq!(
        ask(4, 2, SCHEMA, &sheet),
        "18,2,3,5,0,8,r.assert.for_all.that.exists"
    );
    let sheet = rule(&for_all("b", &string("$fields.a"), "C,2,0,\n"));
    assert_eq!(
        ask(4, 2, SCHEMA, &sheet),
        "16,8,0,4,3,8,r.assert.for_all.that"
    );
}

#[test]
fn a_template_counts_its_references() {
    let members = format!(
        "K,3,$no\n{}K,1,a\n{}K,1,b\n{}",
        string("$id"),
        string("$$x"),
        string("$nope")
    );
    let sheet = format!(
        "T\nV,6,3,\n{}{}V,7,3,\n{members}",
        number("1e999"),
        string("$fields.s")
    );
    assert_eq!(ask(4, 2, SCHEMA, &sheet), "18,2,12,11,0,2,r[2].b");
    assert_eq!(ask(2, 2, SCHEMA, &sheet), "18,1,12,11,0,2,r[2].b");
    assert_eq!(
        ask(2, 2, SCHEMA, &format!("T\n{}", string("$$x"))),
        "0,0,0,0,0,0,"
    );
    assert_eq!(
        ask(2, 2, SCHEMA, &format!("T\n{}", string(""))),
        "0,0,0,0,0,0,"
    );
    assert_eq!(
        ask(2, 2, SCHEMA, &format!("T\n{}", string("$"))),
        "18,1,12,2,0,0,r"
    );
}

#[test]
fn every_pair_names_its_operator() {
    let names = ["eq", "ne", "gt", "gte", "lt", "lte", "in", "contains"];
    for (op, name) in (8..).zip(names) {
        let sheet = many(
            2,
            &["C,1,1,\n", &operator(op, &[&string("$id"), &string("$x")])],
        );
        assert_eq!(
            ask_condition(&sheet),
            format!("18,1,12,6,0,8,r.assert.all[1].{name}[1]")
        );
    }
    let sheet = format!(
        "C,21,1,b\n{}{}",
        string("$fields.a"),
        operator(19, &[&string("$x")])
    );
    assert_eq!(
        ask_condition(&sheet),
        "18,8,12,5,3,8,r.assert.for_any.that.truthy"
    );
}
