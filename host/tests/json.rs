//! Rules from JSON and back (docs/FORMAT.md, "Rules as JSON") through the crate: the shapes, the refusals with their places, the limits, the buffers, and the fixed list.

mod support;

use entity_rules::entries::{Content, read_rule};
use entity_rules::json::{self, Tree};
use entity_rules::limits::{JSON_RESULT_BYTES, MAX_SHEET_BYTES};
use entity_rules::{Condition, Refusal, Rule, Value, raw, rule_from_json, rule_to_json};
use support::{Random, line, list, numbers, take};

/// The sheet of a rule without name and message.
fn sheet(assert: &str) -> Vec<u8> {
    let text = format!(r#"{{"assert":{assert}}}"#);
    let sheet = rule_from_json(text).expect("a rule").into_bytes();
    assert!(sheet.starts_with(b"R,-,-,\n"), "{assert}");
    sheet[7..].to_vec()
}

/// The number, the place and the reason of a text that is refused.
fn fault(text: &str) -> (u32, usize, usize, String) {
    let error = rule_from_json(text).expect_err(text);
    let fault = error
        .fault()
        .unwrap_or_else(|| panic!("no fault in {text}"));
    assert_eq!(error.to_string(), fault.to_string());
    (
        error.number(),
        fault.line,
        fault.column,
        fault.reason.clone(),
    )
}

/// One shape of each operator, with its entries.
const SHAPES: &[(&str, &str)] = &[
    ("true", "C,1,1,\n"),
    ("false", "C,1,0,\n"),
    (r#"{"all":[]}"#, "C,2,0,\n"),
    (
        r#"{"any":[true,{"not":false}]}"#,
        "C,3,2,\nC,1,1,\nC,4,0,\nC,1,0,\n",
    ),
    (r#"{"exists":null}"#, "C,5,0,\nV,1,0,\n"),
    (r#"{"truthy":"$id"}"#, "C,19,0,\nV,5,3,$id\n"),
    (r#"{"before":["a","b"]}"#, "C,6,0,\nV,5,1,a\nV,5,1,b\n"),
    (r#"{"after":[false,true]}"#, "C,7,0,\nV,2,0,\nV,3,0,\n"),
    (r#"{"eq":[-0,1E5]}"#, "C,8,0,\nV,4,2,-0\nV,4,3,1E5\n"),
    (r#"{"ne":[[],{}]}"#, "C,9,0,\nV,6,0,\nV,7,0,\n"),
    (r#"{"gt":[1,2]}"#, "C,10,0,\nV,4,1,1\nV,4,1,2\n"),
    (r#"{"gte":[1,2]}"#, "C,11,0,\nV,4,1,1\nV,4,1,2\n"),
    (r#"{"lt":[1,2]}"#, "C,12,0,\nV,4,1,1\nV,4,1,2\n"),
    (r#"{"lte":[1,2]}"#, "C,13,0,\nV,4,1,1\nV,4,1,2\n"),
    (
        r#"{"in":[1,[2,"3"]]}"#,
        "C,14,0,\nV,4,1,1\nV,6,2,\nV,4,1,2\nV,5,1,3\n",
    ),
    (
        r#"{"contains":[{"b":1,"a":[null]},2]}"#,
        "C,15,0,\nV,7,2,\nK,1,b\nV,4,1,1\nK,1,a\nV,6,1,\nV,1,0,\nV,4,1,2\n",
    ),
    (r#"{"starts_with":["",""]}"#, "C,16,0,\nV,5,0,\nV,5,0,\n"),
    (r#"{"ends_with":["",""]}"#, "C,17,0,\nV,5,0,\nV,5,0,\n"),
    (
        r#"{"compare":{"left":1,"op":"gt","right":2}}"#,
        "C,18,5,\nV,4,1,1\nV,4,1,2\n",
    ),
    (
        r#"{"for_all":{"in":"$fields.a","as":"b","that":true}}"#,
        "C,20,1,b\nV,5,9,$fields.a\nC,1,1,\n",
    ),
    (
        r#"{"for_any":{"in":[],"as":"","that":{"all":[]}}}"#,
        "C,21,0,\nV,6,0,\nC,2,0,\n",
    ),
];

#[test]
fn every_shape_becomes_its_entries_and_comes_back() {
    for (assert, entries) in SHAPES {
        assert_eq!(sheet(assert), entries.as_bytes(), "{assert}");
        let whole = format!("R,-,-,\n{entries}");
        let text = format!(r#"{{"assert":{assert}}}"#);
        assert_eq!(rule_to_json(whole.as_bytes()), Ok(text));
    }
}

#[test]
fn members_come_in_any_order_and_null_is_absent() {
    for (text, sheet) in [
        (
            r#"{"message":"m","assert":true,"name":"n"}"#,
            "R,1,1,nm\nC,1,1,\n",
        ),
        (
            r#"{"message":null,"name":null,"assert":true}"#,
            "R,-,-,\nC,1,1,\n",
        ),
        (r#"{"name":"","assert":true}"#, "R,0,-,\nC,1,1,\n"),
        (
            r#"{"assert":{"compare":{"right":2,"op":"eq","left":1}}}"#,
            "R,-,-,\nC,18,1,\nV,4,1,1\nV,4,1,2\n",
        ),
        (
            r#"{"assert":{"for_all":{"that":true,"as":"b","in":"x"}}}"#,
            "R,-,-,\nC,20,1,b\nV,5,1,x\nC,1,1,\n",
        ),
        (
            "\t\r\n { \"\\u0061ssert\" : {\"\\u0065q\":[ \"\\ud83d\\uDE00\\/\" , \"\\b\\f\\n\\r\\t\\\"\\\\\" ] } } ",
            "R,-,-,\nC,8,0,\nV,5,5,😀/\nV,5,7,\u{8}\u{c}\n\r\t\"\\\n",
        ),
    ] {
        assert_eq!(
            rule_from_json(text).map(Vec::from),
            Ok(sheet.into()),
            "{text}"
        );
    }
}

#[test]
fn json_is_compact_and_escapes_no_more_than_it_must() {
    let text: String = (0..0x80).map(char::from).collect();
    let rule = Rule::new(Condition::exists(Value::string(&format!("{text}é\u{7F}"))));
    let json = rule_to_json(&rule.sheet().expect("a sheet")).expect("a rule");
    let controls: String = (0..0x20).map(|byte| format!("\\u{byte:04x}")).collect();
    let plain: String = (0x20..0x80).map(|byte: u8| char::from(byte)).collect();
    let plain = plain.replace('\\', "\\\\").replace('"', "\\\"");
    assert_eq!(
        json,
        format!("{{\"assert\":{{\"exists\":\"{controls}{plain}é\u{7F}\"}}}}")
    );
}

#[test]
fn other_sheets_have_no_json() {
    for sheet in ["", "T\nV,1,0,\n", "R,-,-,\nC,1,2,\n", "H,0,0,-,0\n"] {
        assert_eq!(rule_to_json(sheet.as_bytes()), Err(Refusal::RuleSheet));
    }
}

#[test]
fn what_is_not_json_is_told_with_its_place() {
    for (text, line, column, reason) in [
        ("", 1, 1, "expected a value"),
        (
            "\u{FEFF}{}",
            1,
            1,
            "expected a value, not a byte order mark before it",
        ),
        ("{\"assert\":tru}", 1, 11, "expected a value"),
        (
            "{\"assert\":true,}",
            1,
            16,
            "expected the name of a member, a string",
        ),
        (
            "{assert:true}",
            1,
            2,
            "expected the name of a member, a string",
        ),
        (
            "{\"assert\" true}",
            1,
            11,
            "expected a colon after the name",
        ),
        ("{\"assert\":true", 1, 15, "expected a comma or `}`"),
        (
            "{\"assert\":{\"all\":[true}}",
            1,
            23,
            "expected a comma or `]`",
        ),
        ("{\"assert\":true}\n}", 2, 1, "expected the end of the text"),
        (
            "{\"assert\":{\"exists\":01}}",
            1,
            21,
            "expected a number as JSON writes it, not \"01\"",
        ),
        ("{\"é\":\"abc", 1, 6, "this string has no end"),
        (
            "{\"name\":\"a\nb\"}",
            1,
            11,
            "expected \\u000a, since a string has no control byte as it is",
        ),
        (
            "{\"name\":\"\\x\"}",
            1,
            10,
            "expected an escape of JSON: \\\", \\\\, \\/, \\b, \\f, \\n, \\r, \\t or \\u and four digits",
        ),
        (
            "{\"name\":\"\\u12g4\"}",
            1,
            12,
            "expected four hexadecimal digits",
        ),
        (
            "{\"name\":\"\\uDC00\"}",
            1,
            10,
            "this escape is one half of a surrogate pair, without the other",
        ),
        (
            "{\"name\":\"\\uD800\\u0041\"}",
            1,
            10,
            "this escape is one half of a surrogate pair, without the other",
        ),
    ] {
        assert_eq!(fault(text), (31, line, column, reason.to_owned()), "{text}");
    }
    let error = rule_from_json(b"{\"name\":\"\xC3\x28\"}").expect_err("not UTF-8");
    let told = error.fault().map(ToString::to_string);
    assert_eq!(
        told.as_deref(),
        Some("line 1, column 10: expected text in UTF-8")
    );
}

#[test]
fn another_shape_is_told_with_its_place() {
    let condition = "a condition is `true`, `false` or an object with one operator";
    for (text, column, reason) in [
        ("[]", 1, "a rule is an object with the member `assert`, not an array".to_owned()),
        ("{}", 1, "this rule has no member `assert`".to_owned()),
        (
            r#"{"asert":true}"#,
            2,
            "a rule has no member \"asert\"; did you mean `assert`?".to_owned(),
        ),
        (
            r#"{"assert":true,"x":null}"#,
            16,
            "a rule has no member \"x\"; its members are `name`, `assert` and `message`".to_owned(),
        ),
        (r#"{"assert":null}"#, 11, format!("{condition}, not null")),
        (
            r#"{"assert":true,"name":7}"#,
            23,
            "`name` is a string or null, not a number".to_owned(),
        ),
        (
            r#"{"assert":{}}"#,
            11,
            "a condition has one operator, and this object none".to_owned(),
        ),
        (
            r#"{"assert":{"not":true,"exists":1}}"#,
            23,
            "a condition has one operator, and \"exists\" is a second; `all` and `any` take several conditions".to_owned(),
        ),
        (
            r#"{"assert":{"forall":1}}"#,
            12,
            "there is no operator `forall`; did you mean `for_all`?".to_owned(),
        ),
        (
            r#"{"assert":{"literal":true}}"#,
            12,
            "there is no operator `literal`".to_owned(),
        ),
        (
            r#"{"assert":{"all":true}}"#,
            18,
            "`all` takes an array of conditions, not `true`".to_owned(),
        ),
        (r#"{"assert":{"all":[1]}}"#, 19, format!("{condition}, not a number")),
        (
            r#"{"assert":{"eq":[1]}}"#,
            17,
            "`eq` takes an array of two values, and this one has 1".to_owned(),
        ),
        (
            r#"{"assert":{"eq":{}}}"#,
            17,
            "`eq` takes an array of two values, not an object".to_owned(),
        ),
        (
            r#"{"assert":{"compare":{"left":1,"op":"eq"}}}"#,
            22,
            "this `compare` has no member `right`".to_owned(),
        ),
        (
            r#"{"assert":{"compare":{"left":1,"op":"equal","right":2}}}"#,
            37,
            "`op` is one of `eq`, `ne`, `lt`, `lte`, `gt` and `gte`, not \"equal\"".to_owned(),
        ),
        (
            r#"{"assert":{"compare":{"left":1,"op":1,"right":2}}}"#,
            37,
            "`op` is one of `eq`, `ne`, `lt`, `lte`, `gt` and `gte`, not a number".to_owned(),
        ),
        (
            r#"{"assert":{"for_any":{"in":1,"as":null,"that":true}}}"#,
            35,
            "`as` is a string, the bind, not null".to_owned(),
        ),
        (
            r#"{"assert":{"for_any":{"in":1,"as":"a","where":true}}}"#,
            39,
            "`for_any` has no member \"where\"; its members are `in`, `as` and `that`".to_owned(),
        ),
    ] {
        assert_eq!(fault(text), (31, 1, column, reason), "{text}");
    }
}

#[test]
fn a_name_that_comes_again_is_told_with_both_places() {
    let text = "{\"assert\":{\"exists\":{\"a\":1,\n\"\\u0061\":2}}}";
    let reason = "the name \"a\" comes again in this object, first on line 1";
    assert_eq!(fault(text), (31, 2, 1, reason.to_owned()));
    // Of two faults the earlier is told.
    let text = r#"{"assert":{"exits":1},"name":"a","name":"b"}"#;
    assert_eq!(fault(text).2, 12);
    let text = r#"{"name":"a","name":"b","assert":{"exits":1}}"#;
    assert_eq!(fault(text).2, 13);
}

/// A text with an array of so many arrays in one another.
fn nested(arrays: usize) -> String {
    let (before, after) = ("[".repeat(arrays), "]".repeat(arrays));
    format!(r#"{{"assert":{{"exists":{before}{after}}}}}"#)
}

#[test]
fn each_limit_is_met_and_passed_by_one() {
    let string = |bytes: usize| format!(r#"{{"assert":{{"exists":"{}"}}}}"#, "a".repeat(bytes));
    let named = |bytes: usize| format!(r#"{{"name":"{}","assert":true}}"#, "a".repeat(bytes));
    let nots = |depth: usize| {
        let (before, after) = (r#"{"not":"#.repeat(depth - 1), "}".repeat(depth - 1));
        format!(r#"{{"assert":{before}true{after}}}"#)
    };
    let truths = |count: usize| {
        let all = vec!["true"; count];
        format!(r#"{{"assert":{{"all":[{}]}}}}"#, all.join(","))
    };
    // 57 long strings, and one that fills the sheet.
    let long = |bytes: usize| {
        let text = |bytes: usize| format!("\"{}\"", "a".repeat(bytes));
        let mut strings = vec![text(509); 57];
        strings.push(text(bytes));
        format!(r#"{{"assert":{{"in":[1,[{}]]}}}}"#, strings.join(","))
    };
    let rest = MAX_SHEET_BYTES - rule_from_json(long(200)).expect("a rule").len();
    for (met, passed, reason) in [
        (
            string(512),
            string(513),
            "this text has 513 bytes, and 512 are the most that one may have",
        ),
        (
            named(512),
            named(513),
            "this text has 513 bytes, and 512 are the most that one may have",
        ),
        (nots(256), nots(257), "conditions nest over 256 deep here"),
        (nested(64), nested(65), "values nest over 64 deep here"),
        (
            truths(2_046),
            truths(2_047),
            "here the sheet passes 2,048 entries, the most that one may have",
        ),
        (
            long(200 + rest),
            long(201 + rest),
            "here the sheet passes 30,000 bytes, the most that one may have",
        ),
    ] {
        assert!(rule_from_json(met).is_ok(), "{reason}");
        let (number, _, _, told) = fault(&passed);
        assert_eq!((number, told.as_str()), (32, reason));
    }
}

#[test]
fn the_longest_json_has_room() {
    let controls = format!("\"{}\"", "\\u0001".repeat(512));
    let text = format!(
        r#"{{"assert":{{"exists":[{}]}}}}"#,
        vec![controls; 57].join(",")
    );
    let sheet = rule_from_json(&text).expect("a rule");
    assert!(sheet.len() > 29_500);
    assert_eq!(rule_to_json(&sheet), Ok(text));
}

#[test]
fn nesting_counts_arrays_and_objects() {
    // The rule and its condition are two; what a scalar adds does not count.
    let deepest = nested(1_022).replace("[]", "[1]");
    let refused = rule_from_json(&deepest).map_err(|error| error.number());
    assert_eq!(refused, Err(32));
    let (number, _, column, reason) = fault(&nested(1_023));
    assert_eq!((number, column), (31, 21 + 1_022));
    assert_eq!(reason, "arrays and objects nest over 1,024 deep");
}

#[test]
fn a_text_that_is_no_rule_is_31_however_long_its_sheet() {
    let strings = vec!["\"a\""; 40_000].join(",");
    let text = |last: &str| format!(r#"{{"assert":{{"exists":[{strings},{last}]}}}}"#);
    let (number, ..) = fault(&text("1"));
    assert_eq!(number, 32);
    let (number, _, _, reason) = fault(&text(r#"{"k":1,"k":2}"#));
    assert_eq!(number, 31);
    assert_eq!(
        reason,
        "the name \"k\" comes again in this object, first on line 1"
    );
}

#[test]
fn buffers_are_whole_or_untouched() {
    let (text, sheet) = (br#"{"assert":false}"#, b"R,-,-,\nC,1,0,\n");
    type Call = fn(&[u8], &mut [u8], &mut [u8]) -> u32;
    let calls: [(Call, &[u8], &[u8]); 2] =
        [(raw::from_json, text, sheet), (raw::to_json, sheet, text)];
    for (call, given, made) in calls {
        for room in [0, made.len() - 1, made.len(), made.len() + 3] {
            for result_bytes in [0, 7, JSON_RESULT_BYTES, 11] {
                let (mut buffer, mut result) = (vec![b'-'; room], vec![b'-'; result_bytes]);
                let fits = made.len() <= room;
                let number = call(given, &mut buffer, &mut result);
                assert_eq!(number, if fits { 0 } else { 33 });
                let length = if fits { made.len() } else { 0 };
                assert_eq!(buffer[..length], made[..length]);
                assert!(buffer[length..].iter().all(|&byte| byte == b'-'));
                let written = if result_bytes < JSON_RESULT_BYTES {
                    0
                } else {
                    8
                };
                assert!(result[written..].iter().all(|&byte| byte == b'-'));
                if written > 0 {
                    let fields = [0, 1].map(|index| raw::field(&result, index));
                    assert_eq!(fields, [number, u32::try_from(length).expect("short")]);
                }
            }
        }
    }
}

/// The edges of the format that no other test here has.
#[test]
fn edges_of_the_format() {
    let number = |text: &str| rule_from_json(text).map_or_else(|error| error.number(), |_| 0);
    let exists = |value: &str| number(&format!(r#"{{"assert":{{"exists":{value}}}}}"#));
    assert_eq!(
        sheet(r#"{"exists":"\ud83d\ude00"}"#),
        "C,5,0,\nV,5,4,😀\n".as_bytes()
    );
    assert_eq!(exists(r#""\ude00\ud83d""#), 31);
    assert_eq!(exists(r#""\ud83d""#), 31);
    assert_eq!(exists("\"\u{1F}\""), 31);
    assert_eq!(exists("\"\u{7F}\""), 0);
    let escaped = |letters: usize| exists(&format!("\"{}\"", "\\u0061".repeat(letters)));
    assert_eq!([512, 513].map(escaped), [0, 32]);
    let repeated = format!(r#"[{}{{"k":1,"k":1}}]"#, "0,".repeat(9_000));
    let text = format!(r#"{{"assert":{{"exists":{repeated}}}}}"#);
    assert_eq!(raw::from_json(text.as_bytes(), &mut [], &mut []), 31);
    assert_eq!(raw::to_json(b"T\nV,1,0,\n", &mut [], &mut []), 5);
}

/// What a string of the text says.
fn said(text: &[u8], span: std::ops::Range<usize>) -> String {
    let tree = Tree::read(&text[span]).expect("a value");
    match tree.root().content() {
        json::Content::String(text) => text.clone(),
        other => panic!("{other:?}"),
    }
}

#[test]
fn parts_of_a_string_are_found_behind_escapes() {
    let text = br#"["a\ud83d\ude00b\n"]"#;
    for (part, place) in [
        (0..0, 2..2),
        (0..1, 2..3),
        (1..5, 3..15),
        (5..6, 15..16),
        (6..7, 16..18),
        (7..9, 18..19),
    ] {
        assert_eq!(json::within(text, 1..19, part), place);
    }
}

/// That the crate's reading says of a text what the library says, and that each entry comes from where it says.
fn agrees(text: &[u8]) {
    let (read, origins) = (rule_from_json(text), json::origins(text));
    match (&read, &origins) {
        (Ok(sheet), Ok(origins)) => {
            let entries = read_rule(sheet).expect("a well-formed sheet");
            assert_eq!(entries.len(), origins.len());
            for (entry, origin) in entries.iter().zip(origins) {
                let span = origin.span.clone();
                let own = String::from_utf8_lossy(&text[span.clone()]).into_owned();
                match entry.content {
                    Content::Null => assert_eq!(own, "null"),
                    Content::Bool(truth) | Content::Literal(truth) => {
                        assert_eq!(own, truth.to_string());
                    }
                    Content::Number(number) => assert_eq!(own, number),
                    Content::String(string) | Content::Key(string) => {
                        assert_eq!(said(text, span.clone()), string);
                        let all = json::within(text, span.clone(), 0..string.len());
                        assert_eq!(all, span.start + 1..span.end - 1);
                    }
                    Content::Condition(operator, _) => {
                        assert_eq!(said(text, span), operator.text())
                    }
                    Content::Compare(_) => assert_eq!(said(text, span), "compare"),
                    Content::Quantifier(operator, bind) => {
                        assert_eq!(said(text, span), operator.text());
                        let [first, _] = origin.texts.clone();
                        assert_eq!(said(text, first.expect("a bind")), bind);
                    }
                    Content::Rule { name, message } => {
                        let texts = origin
                            .texts
                            .clone()
                            .map(|text_span| text_span.map(|text_span| said(text, text_span)));
                        assert_eq!(texts.each_ref().map(Option::as_deref), [name, message]);
                    }
                    _ => {}
                }
            }
            let json = rule_to_json(sheet).expect("a rule");
            assert_eq!(rule_from_json(json).as_ref(), Ok(sheet));
        }
        (Err(error), Err(fault)) => {
            assert!(matches!(error.number(), 31 | 32), "{error:?}");
            assert_eq!(error.fault(), Some(fault));
        }
        _ => panic!("{read:?}, {origins:?}: {}", String::from_utf8_lossy(text)),
    }
}

#[test]
fn the_crate_reads_what_the_library_reads() {
    let mut random = Random(0x0104_2026);
    let tokens = "{}[],:\"\\u00e9 \n0-1.eE+tfnaldsr\u{1}é";
    let tokens: Vec<char> = tokens.chars().collect();
    let texts: Vec<String> = SHAPES
        .iter()
        .map(|(assert, _)| {
            format!("{{\"name\": \"a\\u0062\", \"assert\": {assert},\n\"message\": null}}")
        })
        .collect();
    for text in &texts {
        agrees(text.as_bytes());
    }
    for _ in 0..20_000 {
        let mut bytes: Vec<u8> = texts[random.below(texts.len())].clone().into_bytes();
        for _ in 0..=random.below(3) {
            let at = random.below(bytes.len());
            let token = random.pick(&tokens).to_string().into_bytes();
            let end = if random.chance(2) { at } else { at + 1 };
            bytes.splice(
                at..end.min(bytes.len()),
                if random.chance(3) { vec![] } else { token },
            );
        }
        agrees(&bytes);
    }
}

/// A case of the list: which call, what it is given, its number, and what it makes.
struct Case {
    call: u64,
    given: Vec<u8>,
    number: u32,
    made: Vec<u8>,
}

fn cases() -> Vec<Case> {
    let list = list("json.txt");
    let (mut rest, mut cases) = (list.as_slice(), Vec::new());
    while !rest.is_empty() {
        let [call, bytes, number, made] = numbers(line(&mut rest))[..] else {
            panic!("four numbers");
        };
        let given = take(&mut rest, bytes).to_vec();
        let made = take(&mut rest, made).to_vec();
        assert_eq!(line(&mut rest), "");
        let number = u32::try_from(number).expect("a number");
        cases.push(Case {
            call,
            given,
            number,
            made,
        });
    }
    cases
}

#[test]
fn the_fixed_list_is_answered_as_before() {
    let cases = cases();
    assert!(cases.len() > 1_000);
    for case in cases {
        let call = match case.call {
            1 => raw::from_json,
            _ => raw::to_json,
        };
        let made = case.made.len();
        for room in [0, made.saturating_sub(1), made, made + 5] {
            let (mut buffer, mut result) = (vec![b'-'; room], [0; JSON_RESULT_BYTES]);
            let expected = match case.number {
                0 if room < made => 33,
                number => number,
            };
            assert_eq!(call(&case.given, &mut buffer, &mut result), expected);
            let length = if expected == 0 { made } else { 0 };
            assert_eq!(raw::field(&result, 1) as usize, length);
            assert_eq!(buffer[..length], case.made[..length]);
            assert!(buffer[length..].iter().all(|&byte| byte == b'-'));
        }
        match (case.call, case.number) {
            (1, _) => agrees(&case.given),
            (_, 0) => assert_eq!(
                rule_from_json(&case.made).map(Vec::from),
                Ok(case.given.clone())
            ),
            _ => assert_eq!(rule_to_json(&case.given), Err(Refusal::RuleSheet)),
        }
    }
}
