//! Which pairs of schemas are widenings.

use super::*;

/// Whether the second sheet is a widening of the first, and whether only marks were opened.
fn widens(first: &str, second: &str) -> (bool, bool) {
    let [first, second] = [first, second].map(|sheet| decode_schema(sheet.as_bytes()).unwrap());
    (
        is_widening(&first, &second),
        only_marks_opened(&first, &second),
    )
}

const ARRAY: &str = "H,0,1,-,0\nF,6,0,1,0,1,-,a\nF,7,0,0,0,0,-,\n";

#[test]
fn what_may_change() {
    assert_eq!(widens(SCHEMA, SCHEMA), (true, true));
    assert_eq!(
        widens(ARRAY, "H,1,1,-,0\nF,6,1,1,0,1,-,a\nF,7,1,0,0,0,-,\n"),
        (true, true)
    );
    for second in [
        "H,0,2,-,0\nF,6,0,1,0,1,-,a\nF,7,0,0,0,0,-,\nF,8,1,0,0,1,-,b\n",
        "H,1,2,-,0\nF,1,0,0,0,0,-,\nF,6,0,1,0,1,-,a\nF,7,0,0,0,0,-,\n",
        "H,0,1,-,0\nF,6,0,1,0,1,-,a\nF,7,0,0,1,0,-,\nF,7,1,1,0,1,-,b\nF,1,0,0,0,0,-,\n",
        "H,0,1,-,0\nF,6,0,1,1,1,-,a\nF,7,0,0,0,0,-,\nF,1,0,0,0,1,-,b\n",
        "H,0,1,0,0\nF,6,0,1,0,1,-,a\nF,7,0,0,0,0,-,\n",
        "H,0,1,1,1\nF,6,0,1,0,1,-,a\nF,7,0,0,0,0,-,\nF,1,0,0,0,1,-,b\n",
    ] {
        assert_eq!(widens(ARRAY, second), (true, false), "{second}");
    }
}

#[test]
fn what_may_not_change() {
    for second in [
        "H,0,0,-,0\n",
        "H,0,1,-,0\nF,8,0,1,0,1,-,a\nF,7,0,0,0,0,-,\n",
        "H,0,1,-,0\nF,6,0,0,0,1,-,a\n",
        "H,0,1,-,0\nF,6,0,0,1,1,-,a\nF,7,0,0,0,0,-,\n",
        "H,0,1,-,0\nF,6,0,1,0,1,0,a\nF,7,0,0,0,0,-,\n",
        "H,0,1,-,0\nF,6,0,1,0,1,-,b\nF,7,0,0,0,0,-,\n",
        "H,0,1,-,0\nF,6,0,1,0,1,-,a\nF,8,0,0,0,0,-,\n",
    ] {
        assert_eq!(widens(ARRAY, second), (false, false), "{second}");
    }
    let open = "H,1,1,-,0\nF,7,1,0,0,1,-,a\n";
    for second in [
        "H,0,1,-,0\nF,7,1,0,0,1,-,a\n",
        "H,1,1,-,0\nF,7,0,0,0,1,-,a\n",
        "H,1,2,-,0\nF,7,1,0,0,1,-,a\nF,1,0,0,0,1,-,b\n",
        "H,1,1,-,0\nF,7,1,0,1,1,-,a\nF,1,0,0,0,1,-,b\n",
        "H,1,1,-,0\nF,7,1,1,0,1,-,a\nF,1,0,0,0,0,-,\n",
    ] {
        assert_eq!(widens(open, second), (false, false), "{second}");
    }
    assert_eq!(widens("H,0,0,0,0\n", "H,0,0,-,0\n"), (false, false));
    assert_eq!(
        widens("H,0,0,1,0\n", "H,0,0,1,1\nF,1,0,0,0,1,-,a\n"),
        (false, false)
    );
    assert_eq!(
        widens("H,0,0,0,0\n", "H,0,0,1,1\nF,1,0,0,0,1,-,a\n"),
        (true, false)
    );
}

#[test]
fn json_in_place_of_an_array_would_break_a_quantifier() {
    let sheet = rule(&for_all("b", &string("$fields.a"), "C,1,1,\n"));
    assert_eq!(check(&call(2, 2, ARRAY, &sheet)).number, 0);
    assert_eq!(
        check(&call(2, 2, "H,0,1,-,0\nF,8,0,0,0,1,-,a\n", &sheet)).number,
        22
    );
}

/// The answer, the reason and the two entries.
fn told(first: &str, second: &str) -> [u32; 4] {
    match super::widens(first.as_bytes(), second.as_bytes(), 28) {
        [0, answer, reason, one, two, 0, 0] => [answer, reason, one, two],
        other => panic!("{other:?} for {first} and {second}"),
    }
}

#[test]
fn the_first_breach_is_that_of_the_first_sheet() {
    let first = "H,1,2,1,1\nF,6,1,1,1,1,1,ax\nF,7,1,0,1,0,-,\nF,1,0,0,0,1,-,b\nF,1,0,0,0,1,-,p\nF,1,0,0,0,1,-,c\nF,1,0,0,0,1,-,g\n";
    for (second, expected) in [
        // The head: the record's mark, the arguments, their mark.
        ("H,0,0,-,0\n", [3, 5, 1, 1]),
        ("H,1,0,-,0\n", [3, 7, 1, 0]),
        ("H,1,0,0,0\n", [3, 5, 1, 1]),
        // Of two names the smaller one, whichever sheet has it.
        ("H,1,1,1,0\nF,1,0,0,0,1,-,b\n", [3, 1, 2, 0]),
        ("H,1,1,1,0\nF,1,0,0,0,0,-,\n", [3, 6, 0, 2]),
        // A field's own entry, in its order.
        ("H,1,1,1,0\nF,8,0,0,0,1,-,a\n", [3, 2, 2, 2]),
        ("H,1,1,1,0\nF,6,0,0,0,1,-,a\n", [3, 5, 2, 2]),
        ("H,1,1,1,0\nF,6,1,0,0,1,-,a\n", [3, 3, 2, 2]),
        ("H,1,1,1,0\nF,6,1,1,0,1,-,a\nF,1,0,0,0,0,-,\n", [3, 4, 2, 2]),
        // Then its element with all below it, then its properties.
        ("H,1,1,1,0\nF,6,1,1,0,1,1,ax\nF,7,1,0,0,0,-,\n", [3, 1, 4, 0]),
        ("H,1,1,1,0\nF,6,1,1,0,1,1,ax\nF,7,1,0,1,0,-,\nF,1,0,0,0,1,-,b\n", [3, 1, 5, 0]),
        ("H,1,1,1,0\nF,6,1,1,2,1,1,ax\nF,7,1,0,1,0,-,\nF,1,0,0,0,1,-,b\nF,1,0,0,0,1,-,o\nF,1,0,0,0,1,-,p\n", [3, 6, 0, 5]),
        // Then the next field, and at last the arguments.
        ("H,1,1,1,0\nF,6,1,1,1,1,1,ax\nF,7,1,0,1,0,-,\nF,1,0,0,0,1,-,b\nF,1,0,0,0,1,-,p\n", [3, 1, 6, 0]),
        ("H,1,2,1,0\nF,6,1,1,1,1,1,ax\nF,7,1,0,1,0,-,\nF,1,0,0,0,1,-,b\nF,1,0,0,0,1,-,p\nF,1,0,0,0,1,-,c\n", [3, 1, 7, 0]),
        (first, [1, 0, 0, 0]),
    ] {
        assert_eq!(told(first, second), expected, "{second}");
    }
}

#[test]
fn a_refused_sheet_is_told_by_its_turn() {
    let schema = SCHEMA.as_bytes();
    assert_eq!(super::widens(b"", b"", 27), [3, 0, 0, 0, 0, 0, 0]);
    assert_eq!(super::widens(b"", b"", 28), [4, 1, 0, 0, 0, 0, 0]);
    assert_eq!(super::widens(b"", schema, 28), [4, 1, 0, 0, 0, 0, 0]);
    assert_eq!(super::widens(schema, b"", 28), [4, 2, 0, 0, 0, 0, 0]);
}

#[test]
fn there_is_a_breach_exactly_where_there_is_no_widening() {
    let schemas = small_schemas();
    for (first, second) in schemas
        .iter()
        .flat_map(|first| schemas.iter().map(move |second| (first, second)))
    {
        let (is_widening, marks_alone) = widens(first, second);
        let answer = match (is_widening, marks_alone) {
            (true, true) => 1,
            (true, false) => 2,
            _ => 3,
        };
        assert_eq!(told(first, second)[0], answer, "{first}{second}");
    }
}

/// Ways for a field `a` to be, the first being not there.
const FIELDS: [&str; 15] = [
    "",
    "F,1,0,0,0,1,-,a\n",
    "F,6,0,0,0,1,-,a\n",
    "F,6,0,1,0,1,-,a\nF,7,0,0,0,0,-,\n",
    "F,6,0,1,0,1,-,a\nF,7,1,0,0,0,-,\n",
    "F,6,0,1,0,1,-,a\nF,7,0,0,1,0,-,\nF,6,0,0,0,1,-,b\n",
    "F,7,0,0,0,1,-,a\n",
    "F,7,1,0,0,1,-,a\n",
    "F,7,0,0,1,1,-,a\nF,1,0,0,0,1,-,b\n",
    "F,7,0,0,1,1,-,a\nF,10,0,1,0,1,-,b\nF,2,0,0,0,0,-,\n",
    "F,7,1,0,1,1,-,a\nF,1,0,0,0,1,-,b\n",
    "F,8,0,0,0,1,-,a\n",
    "F,11,0,0,0,1,1,ab\n",
    "F,11,0,0,0,1,1,ac\n",
    "F,1,0,0,1,1,-,a\nF,1,0,0,0,1,-,b\n",
];

const ARGUMENTS: [(&str, &str); 5] = [
    ("-,0", ""),
    ("0,0", ""),
    ("1,0", ""),
    ("0,1", "F,6,0,0,0,1,-,a\n"),
    ("1,1", "F,6,0,0,0,1,-,a\n"),
];

fn small_schemas() -> Vec<String> {
    let mut schemas = Vec::new();
    for (field, open) in FIELDS.iter().flat_map(|field| [(field, 0), (field, 1)]) {
        let count = u8::from(!field.is_empty());
        let sheet = |(head, fields)| format!("H,{open},{count},{head}\n{field}{fields}");
        schemas.extend(ARGUMENTS.map(sheet));
    }
    schemas
}

const ROOTED: [&str; 12] = [
    "$fields.a",
    "$fields.a.b",
    "$fields.a.b.0",
    "$fields.a.count",
    "$fields.a.b.count",
    "$fields.a.0",
    "$fields.a.0.b",
    "$fields.c",
    "$fields",
    "$args.a",
    "$args.c",
    "$args",
];
const BOUND: [&str; 6] = ["$x", "$x.b", "$x.b.0", "$x.count", "xx.b", "xx.c"];

/// Templates with one and two references, and rules with one quantifier inside another.
fn small_rules() -> Vec<String> {
    let mut rules = Vec::new();
    for rooted in ROOTED {
        rules.push(format!(
            "T\nV,6,2,\n{}{}",
            string("$fields.a"),
            string(rooted)
        ));
        for bound in BOUND {
            let inner = for_all("y", &string(bound), &exists("$y.b"));
            rules.push(rule(&for_all("x", &string(rooted), &inner)));
        }
    }
    rules
}

/// Which part of promise 3 a case fell under, once it was seen to hold.
fn promise_3(first: &Answer, second: &Answer, only_marks: bool) -> usize {
    if first.number == 0 {
        assert_eq!(second, first);
        return 0;
    }
    assert!(second.passed >= first.passed);
    if second.passed > first.passed {
        return 1;
    }
    let detail = if only_marks {
        first.detail
    } else {
        second.detail
    };
    assert_eq!(
        second,
        &Answer {
            detail,
            ..first.clone()
        }
    );
    2 + usize::from(only_marks)
}

#[test]
fn promise_3_on_small_schemas() {
    let sheets = small_schemas();
    let rules = small_rules();
    let ask_all = |sheet: &String| {
        rules
            .iter()
            .map(|rule| check(&call(2, 2, sheet, rule)))
            .collect()
    };
    let answers: Vec<Vec<Answer>> = sheets.iter().map(ask_all).collect();
    let trees: Vec<Schema> = sheets
        .iter()
        .map(|sheet| decode_schema(sheet.as_bytes()).unwrap())
        .collect();
    let mut seen = [0; 4];
    let pairs = (0..sheets.len()).flat_map(|one| (0..sheets.len()).map(move |two| (one, two)));
    for (one, two) in pairs.filter(|&(one, two)| is_widening(&trees[one], &trees[two])) {
        let only_marks = only_marks_opened(&trees[one], &trees[two]);
        let both = answers[one].iter().zip(&answers[two]);
        both.for_each(|(first, second)| seen[promise_3(first, second, only_marks)] += 1);
    }
    assert!(seen.iter().all(|&count| count > 1_000), "{seen:?}");
}
