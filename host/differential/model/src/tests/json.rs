//! Rules as JSON: RFC 8259's rules, the shapes, the refusals in their order, and the way back.

use crate::json::{document, MAX_JSON_NESTING};
use crate::{decode_rule, from_json, to_json};

/// A rule whose `exists` has the value that is written so.
fn of_value(value: &str) -> Vec<u8> {
    format!("{{\"assert\":{{\"exists\":{value}}}}}").into_bytes()
}

fn sheet(text: &str) -> Result<String, u32> {
    let made = from_json(text.as_bytes(), usize::MAX)?;
    Ok(String::from_utf8(made).expect("a sheet of UTF-8"))
}

fn value(value: &str) -> Option<String> {
    let made = from_json(&of_value(value), usize::MAX).ok()?;
    let text = String::from_utf8(made).ok()?;
    text.strip_prefix("R,-,-,\nC,5,0,\n").map(str::to_owned)
}

#[test]
fn the_example_of_document_01_goes_both_ways() {
    let json =
        r#"{"assert":{"for_all":{"in":"$fields.bars","as":"b","that":{"lt":["$b.count",9]}}}}"#;
    let rule = "R,-,-,\nC,20,1,b\nV,5,12,$fields.bars\nC,12,0,\nV,5,8,$b.count\nV,4,1,9\n";
    assert_eq!(sheet(json).as_deref(), Ok(rule));
    assert_eq!(
        to_json(rule.as_bytes(), usize::MAX).as_deref(),
        Ok(json.as_bytes())
    );
}

#[test]
fn numbers_are_kept_as_written() {
    for number in [
        "0",
        "-0",
        "1E5",
        "0.10e-07",
        "100000000000000000000",
        "1e+0",
    ] {
        assert_eq!(
            value(number),
            Some(format!("V,4,{},{number}\n", number.len()))
        );
    }
    for none in [
        "01", "-", "+1", "1.", ".5", "1e", "0x1", "1e+", "--1", "NaN", "- 1",
    ] {
        assert_eq!(value(none), None, "{none}");
    }
}

#[test]
fn escapes_are_those_of_section_7() {
    let escapes = r#""\"\\\/\b\f\n\r\t\u0041\u00e9\u00E9\ud834\uDD1E""#;
    assert_eq!(
        value(escapes),
        Some("V,5,17,\"\\/\u{8}\u{C}\n\r\tAéé\u{1D11E}\n".to_owned())
    );
    for none in [
        r#""\a""#,
        r#""\u12""#,
        r#""\ud834""#,
        r#""\udd1e""#,
        r#""\udd1e\ud834""#,
        r#""\ud834\n""#,
        r#""\ud834\u0041""#,
        "\"\u{1F}\"",
        "\"\n\"",
        "'a'",
        "\"a",
    ] {
        assert_eq!(value(none), None, "{none}");
    }
    assert_eq!(value("\"\u{7F}\""), Some("V,5,1,\u{7F}\n".to_owned()));
    assert_eq!(
        from_json(b"{\"assert\":{\"exists\":\"\xED\xA0\x80\"}}", 99),
        Err(31)
    );
}

#[test]
fn members_keep_their_order_and_stand_once() {
    assert_eq!(
        value(r#"{"b":1,"a":{}}"#),
        Some("V,7,2,\nK,1,b\nV,4,1,1\nK,1,a\nV,7,0,\n".to_owned())
    );
    for twice in [
        r#"{"a":1,"b":2,"a":3}"#,
        r#"{"a":1,"\u0061":3}"#,
        r#"[[{"a":1,"a":1}]]"#,
    ] {
        assert_eq!(value(twice), None, "{twice}");
    }
    let rules = [
        r#"{"assert":true,"assert":true}"#,
        r#"{"assert":{"not":true,"not":true}}"#,
        r#"{"name":null,"assert":true,"name":null}"#,
        r#"{"assert":{"compare":{"left":1,"op":"eq","right":1,"op":"eq"}}}"#,
    ];
    for twice in rules {
        assert_eq!(sheet(twice), Err(31), "{twice}");
    }
}

#[test]
fn a_rule_has_three_members_at_most() {
    let head = |text: &str| sheet(text).map(|sheet| sheet.replace("C,1,1,\n", ""));
    assert_eq!(
        head(r#"{"message":"m","assert":true,"name":"ab"}"#).as_deref(),
        Ok("R,2,1,abm\n")
    );
    assert_eq!(
        head(r#" {"name" : null , "assert" : true , "message" : "" } "#).as_deref(),
        Ok("R,-,0,\n")
    );
    for none in [
        "",
        "true",
        "null",
        "{}",
        r#"{"name":"a"}"#,
        r#"{"assert":null}"#,
        r#"{"assert":true,"x":null}"#,
        r#"{"assert":true,"name":1}"#,
        r#"[null,true,null]"#,
        "{\"assert\":true}{",
        "\u{FEFF}{\"assert\":true}",
        "{\"assert\":true,}",
        "{\"assert\":true}\u{B}",
    ] {
        assert_eq!(sheet(none), Err(31), "{none}");
    }
}

#[test]
fn nesting_counts_arrays_and_objects() {
    // The rule and `exists` are two.
    let nested = |levels: usize| {
        let (open, close) = ("[".repeat(levels - 2), "]".repeat(levels - 2));
        of_value(&format!("{open}1{close}"))
    };
    assert_eq!(from_json(&nested(MAX_JSON_NESTING), usize::MAX), Err(32));
    assert_eq!(
        from_json(&nested(MAX_JSON_NESTING + 1), usize::MAX),
        Err(31)
    );
    assert!(document(&nested(MAX_JSON_NESTING)).is_some());
    // A scalar nests one deeper in a sheet than the arrays around it.
    assert!(from_json(&nested(65), usize::MAX).is_ok());
    assert_eq!(from_json(&nested(66), usize::MAX), Err(32));
}

#[test]
fn refusals_come_in_their_order() {
    let long = "x".repeat(513);
    assert_eq!(from_json(&of_value(&format!("\"{long}\"")), 0), Err(32));
    let twice = format!(r#"[{{"a":1,"a":1}},"{long}"]"#);
    assert_eq!(from_json(&of_value(&twice), 0), Err(31));
    let text = of_value("1");
    let made = from_json(&text, 22).expect("22 bytes");
    assert_eq!(made.len(), 22);
    assert_eq!(from_json(&text, 21), Err(33));
    assert_eq!(to_json(b"T\nV,1,0,\n", 99), Err(5));
    assert_eq!(to_json(b"R,-,-,\n", 0), Err(5));
    assert_eq!(to_json(&made, text.len() - 1), Err(33));
    assert_eq!(to_json(&made, text.len()), Ok(text));
}

#[test]
fn a_sheet_as_json_is_read_back() {
    let rule = "R,3,2,a\u{1}\"é\nC,2,2,\nC,18,5,\nV,1,0,\nV,7,1,\nK,1,\\\nV,6,2,\nV,2,0,\nV,3,0,\nC,21,0,\nV,4,2,-0\nC,3,0,\n";
    assert!(decode_rule(rule.as_bytes()).is_some());
    let json = to_json(rule.as_bytes(), usize::MAX).expect("JSON");
    let text = r#"{"name":"a\u0001\"","assert":{"all":[{"compare":{"left":null,"op":"gt","right":{"\\":[false,true]}}},{"for_any":{"in":-0,"as":"","that":{"any":[]}}}]},"message":"é"}"#;
    assert_eq!(String::from_utf8_lossy(&json), text);
    assert_eq!(from_json(&json, rule.len()).as_deref(), Ok(rule.as_bytes()));
}
