//! Sheets written by hand around every limit: the library and the reader of entries agree on each.

mod support;

use entity_rules::entries::{read_rule, read_schema};
use support::{takes_rule, takes_schema};

fn schema(sheet: &str, is_good: bool) {
    let bytes = sheet.as_bytes();
    assert_eq!(
        (takes_schema(bytes), read_schema(bytes).is_ok()),
        (is_good, is_good),
        "{sheet}"
    );
}

fn rule(sheet: &str, is_good: bool) {
    let bytes = sheet.as_bytes();
    assert_eq!(
        (takes_rule(bytes), read_rule(bytes).is_ok()),
        (is_good, is_good),
        "{sheet}"
    );
}

#[test]
fn names_rise_and_keys_differ() {
    let fields = |first: &str, second: &str| {
        format!(
            "F,1,0,0,0,{},-,{first}\nF,1,0,0,0,{},-,{second}\n",
            first.len(),
            second.len()
        )
    };
    let members = |first: &str, second: &str| {
        format!(
            "T\nV,7,2,\nK,{},{first}\nV,1,0,\nK,{},{second}\nV,1,0,\n",
            first.len(),
            second.len()
        )
    };
    for (first, second, rises) in [
        ("a", "b", true),
        ("", "a", true),
        ("a", "aa", true),
        ("z", "é", true),
        ("\u{FFFF}", "\u{10000}", true),
        ("a", "a", false),
        ("", "", false),
        ("b", "a", false),
        ("ab", "a", false),
    ] {
        let two = fields(first, second);
        schema(&format!("H,0,2,-,0\n{two}"), rises);
        schema(&format!("H,0,0,0,2\n{two}"), rises);
        schema(&format!("H,0,1,-,0\nF,7,0,0,2,1,-,o\n{two}"), rises);
        schema(&format!("H,0,1,0,1\n{two}"), true);
        rule(&members(first, second), first != second);
    }
}

/// A template of one object with these keys.
fn object(keys: &[String]) -> String {
    let member = |key: &String| format!("K,{},{key}\nV,1,0,\n", key.len());
    format!(
        "T\nV,7,{},\n{}",
        keys.len(),
        keys.iter().map(member).collect::<String>()
    )
}

#[test]
fn no_key_stands_twice_at_any_distance() {
    for count in [3, 12, 13, 1_022] {
        let falling: Vec<String> = (0..count).rev().map(|n| format!("key{n:04}")).collect();
        // 11 has no factor in common with the counts.
        let strewn: Vec<String> = (0..count)
            .map(|n| format!("key{:04}", n * 11 % count))
            .collect();
        for keys in [falling, strewn] {
            rule(&object(&keys), true);
            for (from, to) in [(0, 1), (0, count - 1), (count / 2, count - 1)] {
                let mut twice = keys.clone();
                twice[to].clone_from(&keys[from]);
                rule(&object(&twice), false);
            }
        }
    }
}

/// So many fields with rising names.
fn fields(count: usize) -> String {
    (0..count)
        .map(|number| format!("F,2,0,0,0,4,-,{number:04}\n"))
        .collect()
}

#[test]
fn schema_entries_up_to_1024() {
    for (entries, is_good) in [(1_023, true), (1_024, true), (1_025, false)] {
        let count = entries - 1;
        schema(&format!("H,0,{count},-,0\n{}", fields(count)), is_good);
        let (some, others) = (count / 3, count - count / 3);
        schema(
            &format!("H,0,{some},0,{others}\n{}{}", fields(some), fields(others)),
            is_good,
        );
        let below = count - 1;
        schema(
            &format!("H,0,1,-,0\nF,7,0,0,{below},0,-,\n{}", fields(below)),
            is_good,
        );
        let (depth, beside) = (64, count - 64);
        let elements = "F,6,0,1,0,0,-,\n".repeat(depth - 1);
        schema(
            &format!(
                "H,0,1,0,{beside}\n{elements}F,8,0,0,0,0,-,\n{}",
                fields(beside)
            ),
            is_good,
        );
    }
    let wide = format!("H,0,1024,-,0\n{}", fields(1_024));
    let fault = read_schema(wide.as_bytes()).unwrap_err();
    assert_eq!(
        (fault.entry, fault.expected.as_str()),
        (1_025, "at most 1024 entries in the sheet")
    );
}

#[test]
fn rule_entries_up_to_2048() {
    for (entries, is_good) in [(2_047, true), (2_048, true), (2_049, false)] {
        let count = entries - 2;
        rule(
            &format!("T\nV,6,{count},\n{}", "V,1,0,\n".repeat(count)),
            is_good,
        );
        rule(
            &format!("R,-,-,\nC,2,{count},\n{}", "C,1,0,\n".repeat(count)),
            is_good,
        );
    }
}

#[test]
fn bytes_up_to_30000() {
    let string = |bytes: usize| format!("V,5,{bytes},{}\n", "t".repeat(bytes));
    let head = format!("T\nV,6,58,\n{}", string(512).repeat(57));
    for (bytes, is_good) in [(29_999, true), (30_000, true), (30_001, false)] {
        let last = bytes - head.len() - string(100).len() + 100;
        let sheet = format!("{head}{}", string(last));
        assert_eq!(sheet.len(), bytes);
        rule(&sheet, is_good);
    }
    let too_long = format!("{head}{}", string(512).repeat(3));
    let fault = read_rule(too_long.as_bytes()).unwrap_err();
    assert_eq!((fault.entry, fault.byte), (60, 30_000));
    rule(&format!("T\nV,1,0,\n{}", " ".repeat(30_000)), false);
}

#[test]
fn texts_up_to_512_bytes() {
    for (bytes, is_good) in [(511, true), (512, true), (513, false)] {
        let text = "t".repeat(bytes);
        schema(&format!("H,0,1,-,0\nF,1,0,0,0,{bytes},-,{text}\n"), is_good);
        schema(
            &format!("H,0,1,-,0\nF,11,0,0,0,1,{bytes},u{text}\n"),
            is_good,
        );
        rule(&format!("R,{bytes},-,{text}\nC,1,0,\n"), is_good);
        rule(&format!("R,-,{bytes},{text}\nC,1,0,\n"), is_good);
        rule(
            &format!("R,-,-,\nC,20,{bytes},{text}\nV,1,0,\nC,1,0,\n"),
            is_good,
        );
        rule(&format!("T\nV,5,{bytes},{text}\n"), is_good);
        rule(&format!("T\nV,4,{bytes},{}\n", "1".repeat(bytes)), is_good);
        rule(&format!("T\nV,7,1,\nK,{bytes},{text}\nV,1,0,\n"), is_good);
    }
}

#[test]
fn nesting_has_limits() {
    for (depth, is_good) in [(63, true), (64, true), (65, false)] {
        let above = depth - 1;
        schema(
            &format!(
                "H,0,1,-,0\n{}F,8,0,0,0,0,-,\n",
                "F,7,0,0,1,0,-,\n".repeat(above)
            ),
            is_good,
        );
        schema(
            &format!(
                "H,0,1,-,0\n{}F,8,0,0,0,0,-,\n",
                "F,6,0,1,0,0,-,\n".repeat(above)
            ),
            is_good,
        );
        rule(&format!("T\n{}V,1,0,\n", "V,6,1,\n".repeat(above)), is_good);
        rule(
            &format!("T\n{}V,1,0,\n", "V,7,1,\nK,0,\n".repeat(above)),
            is_good,
        );
    }
    for (depth, is_good) in [(255, true), (256, true), (257, false)] {
        let above = depth - 1;
        rule(
            &format!("R,-,-,\n{}C,1,1,\n", "C,4,0,\n".repeat(above)),
            is_good,
        );
        rule(
            &format!("R,-,-,\n{}C,1,1,\n", "C,20,0,\nV,1,0,\n".repeat(above)),
            is_good,
        );
    }
}

/// Every numeral of a sheet with a zero before it, and as numbers that would wrap to it.
#[test]
fn numerals_have_one_spelling() {
    let sheets = [
        (
            "H,0,1,1,1\nF,6,0,1,1,1,1,at\nF,8,0,0,0,0,-,\nF,1,1,0,0,2,-,xx\nF,2,0,0,0,0,0,\n",
            schema as fn(&str, bool),
        ),
        (
            "R,1,1,nm\nC,2,2,\nC,1,1,\nC,18,6,\nV,4,1,9\nV,7,1,\nK,1,k\nV,6,0,\n",
            rule,
        ),
    ];
    for (sheet, check) in sheets {
        check(sheet, true);
        for (at, _) in sheet.match_indices(',') {
            let after = &sheet[at + 1..];
            let digits = after.len() - after.trim_start_matches(|c: char| c.is_ascii_digit()).len();
            let Ok(value) = after[..digits].parse::<u128>() else {
                continue;
            };
            let wrapping = [value + (1 << 32), value + (1 << 64)].map(|other| other.to_string());
            for other in wrapping.into_iter().chain([format!("0{value}")]) {
                check(
                    &format!("{},{other}{}", &sheet[..at], &after[digits..]),
                    false,
                );
            }
        }
    }
}

#[test]
fn nothing_follows_the_last_entry() {
    schema("H,0,0,-,0\n", true);
    schema("H,0,0,-,0", false);
    schema("H,0,0,-,0\n\n", false);
    schema("H,0,0,-,1\nF,1,0,0,0,0,-,\n", false);
    schema("", false);
    rule("T\nV,1,0,\n", true);
    rule("T\nV,1,0,\nV,1,0,\n", false);
    rule("T,\nV,1,0,\n", false);
    rule("", false);
}
