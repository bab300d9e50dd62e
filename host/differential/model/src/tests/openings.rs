//! The fewest marks to open, worked out by hand.

use super::*;

const NONE: ([u32; 3], Vec<u32>) = ([0, 0, 0], Vec::new());

fn of<'a>(semantics: u64, schema: &'a str, rule: &'a str) -> OpeningsCall<'a> {
    OpeningsCall {
        kind: 2,
        semantics,
        table: b"",
        schema: schema.as_bytes(),
        rule: rule.as_bytes(),
        path_len: PATH_BYTES,
        list_len: OPENING_LIST_BYTES,
        result_len: OPENINGS_BYTES,
    }
}

fn set(marks: &[u32]) -> ([u32; 3], Vec<u32>) {
    ([0, 1, marks.len() as u32], marks.to_vec())
}

/// A condition under service/1 as a precondition, against `SCHEMA`.
fn opened_for(condition: &str) -> ([u32; 3], Vec<u32>) {
    openings(&of(2, SCHEMA, &rule(condition)))
}

#[test]
fn what_is_accepted_needs_nothing_opened() {
    assert_eq!(opened_for("C,1,1,\n"), set(&[]));
    assert_eq!(opened_for(&exists("$fields.o.anything.else")), set(&[]));
    let template = format!("T\n{}", string("$fields.s"));
    assert_eq!(openings(&of(1, SCHEMA, &template)), set(&[]));
}

#[test]
fn each_holder_has_its_mark() {
    for (reference, mark) in [
        ("$args.zz", 0),
        ("$args.zz.y", 0),
        ("$fields.zz", 1),
        ("$old_fields.zz..", 1),
        ("$fields.a.0.zz", 3),
        ("$fields.f.zz", 7),
    ] {
        assert_eq!(opened_for(&exists(reference)), set(&[mark]), "{reference}");
        let template = format!("T\nV,6,1,\n{}", string(reference));
        assert_eq!(openings(&of(3, SCHEMA, &template)), set(&[mark]));
    }
}

#[test]
fn sets_rise_and_have_no_mark_twice() {
    let references = [
        "$fields.f.q",
        "$fields.a.7.q",
        "$fields.s",
        "$args.q",
        "$fields.f.r",
        "$fields.q",
        "$args.g",
    ];
    let parts = references.map(exists);
    let condition = many(2, &parts.each_ref().map(String::as_str));
    assert_eq!(opened_for(&condition), set(&[0, 1, 3, 7]));
}

#[test]
fn objects_in_objects_are_opened_one_by_one() {
    let schema = "H,0,1,-,0\nF,7,0,0,1,1,-,o\nF,7,0,0,1,1,-,p\nF,7,1,0,0,1,-,q\n";
    let ask = |references: &[&str]| {
        let parts: Vec<String> = references.iter().copied().map(exists).collect();
        let parts: Vec<&str> = parts.iter().map(String::as_str).collect();
        openings(&of(1, schema, &rule(&many(2, &parts))))
    };
    assert_eq!(ask(&["$fields.o.x"]), set(&[2]));
    assert_eq!(ask(&["$fields.o.p.x.y"]), set(&[3]));
    assert_eq!(ask(&["$fields.o.p.q.x"]), set(&[]));
    assert_eq!(
        ask(&["$fields.o.p.x", "$fields.x", "$fields.o.x"]),
        set(&[1, 2, 3])
    );
}

#[test]
fn what_a_binder_stands_for_may_become_unknown() {
    let body = exists("$b.q..r");
    assert_eq!(
        opened_for(&for_all("b", &string("$fields.zz"), &body)),
        set(&[1])
    );
    assert_eq!(
        opened_for(&for_all("b", &string("$fields.f.zz.0"), &body)),
        set(&[7])
    );
    assert_eq!(
        opened_for(&for_all("b", &string("$fields.a"), &exists("$b.q"))),
        set(&[3])
    );
    let shadowed = for_all("fields", &string("$fields.a"), &exists("$fields.q"));
    assert_eq!(opened_for(&shadowed), set(&[3]));
}

#[test]
fn a_collection_below_a_closed_element_is_opened_too() {
    let inner = for_all("c", &string("xb.q"), &exists("$c.anything"));
    assert_eq!(
        opened_for(&for_all("b", &string("$fields.a"), &inner)),
        set(&[3])
    );
    let inner = for_all("c", &string("$b.q"), "C,1,1,\n");
    assert_eq!(
        opened_for(&for_all("b", &string("$fields.a"), &inner)),
        set(&[3])
    );
    let no_collection = for_all("c", &string("xb.s"), "C,1,1,\n");
    assert_eq!(
        opened_for(&for_all("b", &string("$fields.a"), &no_collection)),
        NONE
    );
}

#[test]
fn what_no_opening_cures_leaves_none() {
    for condition in [
        exists("$nope"),
        exists("$fields."),
        exists("$fields.s.zz"),
        exists("$fields.n.count"),
        exists("$state"),
        for_all("b", &string("$fields.n"), "C,1,1,\n"),
        "C,2,0,\n".to_owned(),
    ] {
        assert_eq!(opened_for(&condition), NONE, "{condition}");
        let cured = exists("$fields.zz");
        assert_eq!(opened_for(&many(2, &[&condition, &cured])), NONE);
        assert_eq!(opened_for(&many(3, &[&cured, &condition])), NONE);
    }
    assert_eq!(
        openings(&of(1, SCHEMA, &rule(&exists("$fields.a.0.zz")))),
        NONE
    );
    let no_arguments = "H,0,0,-,0\n";
    assert_eq!(
        openings(&of(2, no_arguments, &rule(&exists("$args.zz")))),
        NONE
    );
    assert_eq!(
        openings(&of(2, no_arguments, &rule(&exists("$args")))),
        set(&[])
    );
}

#[test]
fn the_name_table_decides_what_may_be_read() {
    let hidden = b"N,1,1,1,1,1,1,0,0,0,0\nN,2,1,1,1,1,0,1,1,0,1\n".as_slice();
    let table = [hidden, &Table::stock().write()[44..]].concat();
    let sheet = rule(&exists("$args.zz"));
    let call = of(2, SCHEMA, &sheet);
    assert_eq!(openings(&call), set(&[0]));
    assert_eq!(
        openings(&OpeningsCall {
            table: &table,
            ..call
        }),
        NONE
    );
}

#[test]
fn refusals_come_in_their_order() {
    let sheet = rule(&exists("$fields.zz"));
    let mut call = of(2, SCHEMA, &sheet);
    let unsound = [b"N,1,0", &Table::stock().write()[5..]].concat();
    let refused = |call: &OpeningsCall| {
        let (numbers, list) = openings(call);
        assert!(numbers[1..] == [0, 0] && list.is_empty());
        numbers[0]
    };
    call.rule = b"";
    assert_eq!(refused(&call), 5);
    call.schema = b"";
    assert_eq!(refused(&call), 4);
    call.table = &unsound;
    assert_eq!(refused(&call), 38);
    call.table = b"N";
    assert_eq!(refused(&call), 37);
    call.list_len = OPENING_LIST_BYTES - 1;
    assert_eq!(refused(&call), 36);
    call.result_len = OPENINGS_BYTES - 1;
    assert_eq!(refused(&call), 3);
    call.result_len = OPENINGS_BYTES;
    call.path_len = PATH_BYTES - 1;
    assert_eq!(refused(&call), 3);
    call.semantics = 5;
    assert_eq!(refused(&call), 1);
}
