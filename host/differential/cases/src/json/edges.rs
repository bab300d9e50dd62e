//! Texts whose answers are known.

use super::limits::{by_arrays, by_not};
use super::{published, Expect, TextCase};
use crate::limits::MAX_JSON_NESTING;
use crate::random::Random;

/// Each with the sheet that it gives, or the number of its refusal.
pub fn edges() -> Vec<TextCase> {
    let refused = |text: &&str| TextCase::new(*text, Expect::Number(31));
    let none = published::NONE.iter().map(|sample| TextCase::new(of_value(sample), Expect::Number(31)));
    let made = MADE.iter().map(|(text, sheet)| TextCase::new(*text, Expect::Sheet(sheet.as_bytes().to_vec())));
    let samples = published::SAMPLES.iter().map(|sample| TextCase::new(of_value(sample), Expect::Anything));
    made.chain(REFUSED.iter().map(refused))
        .chain(none)
        .chain(samples)
        .chain(not_text())
        .chain(nested())
        .chain(many_keys())
        .chain(bytes())
        .collect()
}

fn of_value(value: &str) -> String {
    format!("{{\"assert\":{{\"exists\":{value}}}}}")
}

/// Document 01's example, and each row of the table of shapes.
const MADE: [(&str, &str); 26] = [
    (
        r#"{"assert":{"for_all":{"in":"$fields.bars","as":"b","that":{"lt":["$b.count",9]}}}}"#,
        "R,-,-,\nC,20,1,b\nV,5,12,$fields.bars\nC,12,0,\nV,5,8,$b.count\nV,4,1,9\n",
    ),
    (r#"{"assert":true}"#, "R,-,-,\nC,1,1,\n"),
    (
        r#"{"assert":{"exists":{"$serde_json::private::Number":"1"}}}"#,
        "R,-,-,\nC,5,0,\nV,7,1,\nK,28,$serde_json::private::Number\nV,5,1,1\n",
    ),
    (
        r#"{"assert":{"compare":{"left":-0,"op":"ne","right":100000000000000000000}}}"#,
        "R,-,-,\nC,18,2,\nV,4,2,-0\nV,4,21,100000000000000000000\n",
    ),
    ("\t\r\n {\"assert\" : false\n}\r ", "R,-,-,\nC,1,0,\n"),
    (r#"{"name":null,"assert":true,"message":null}"#, "R,-,-,\nC,1,1,\n"),
    (r#"{"message":"mé","assert":true,"name":""}"#, "R,0,3,mé\nC,1,1,\n"),
    (r#"{"\u0061ssert":true}"#, "R,-,-,\nC,1,1,\n"),
    (r#"{"assert":{"all":[]}}"#, "R,-,-,\nC,2,0,\n"),
    (r#"{"assert":{"any":[true,{"not":false}]}}"#, "R,-,-,\nC,3,2,\nC,1,1,\nC,4,0,\nC,1,0,\n"),
    (r#"{"assert":{"exists":null}}"#, "R,-,-,\nC,5,0,\nV,1,0,\n"),
    (r#"{"assert":{"truthy":false}}"#, "R,-,-,\nC,19,0,\nV,2,0,\n"),
    (r#"{"assert":{"before":["a","b"]}}"#, "R,-,-,\nC,6,0,\nV,5,1,a\nV,5,1,b\n"),
    (r#"{"assert":{"after":[1,true]}}"#, "R,-,-,\nC,7,0,\nV,4,1,1\nV,3,0,\n"),
    (r#"{"assert":{"eq":[-0,0.10]}}"#, "R,-,-,\nC,8,0,\nV,4,2,-0\nV,4,4,0.10\n"),
    (r#"{"assert":{"ne":[[],{}]}}"#, "R,-,-,\nC,9,0,\nV,6,0,\nV,7,0,\n"),
    (r#"{"assert":{"gt":[1,2]}}"#, "R,-,-,\nC,10,0,\nV,4,1,1\nV,4,1,2\n"),
    (r#"{"assert":{"gte":[1,2]}}"#, "R,-,-,\nC,11,0,\nV,4,1,1\nV,4,1,2\n"),
    (r#"{"assert":{"lte":[1,2]}}"#, "R,-,-,\nC,13,0,\nV,4,1,1\nV,4,1,2\n"),
    (r#"{"assert":{"in":[1,[2,"x"]]}}"#, "R,-,-,\nC,14,0,\nV,4,1,1\nV,6,2,\nV,4,1,2\nV,5,1,x\n"),
    (r#"{"assert":{"contains":[{"b":1,"a":2},"a"]}}"#, "R,-,-,\nC,15,0,\nV,7,2,\nK,1,b\nV,4,1,1\nK,1,a\nV,4,1,2\nV,5,1,a\n"),
    (r#"{"assert":{"starts_with":["","\u0000"]}}"#, "R,-,-,\nC,16,0,\nV,5,0,\nV,5,1,\0\n"),
    (r#"{"assert":{"ends_with":["\/","\ud834\udd1e"]}}"#, "R,-,-,\nC,17,0,\nV,5,1,/\nV,5,4,\u{1D11E}\n"),
    (r#"{"assert":{"compare":{"right":2,"op":"gte","left":1}}}"#, "R,-,-,\nC,18,6,\nV,4,1,1\nV,4,1,2\n"),
    (r#"{"assert":{"compare":{"left":1,"op":"g\u0074","right":2}}}"#, "R,-,-,\nC,18,5,\nV,4,1,1\nV,4,1,2\n"),
    (r#"{"assert":{"for_any":{"that":{"exists":"$b"},"in":[3],"as":"b"}}}"#, "R,-,-,\nC,21,1,b\nV,6,1,\nV,4,1,3\nC,5,0,\nV,5,2,$b\n"),
];

const REFUSED: [&str; 46] = [
    "",
    " ",
    "{",
    "{}",
    "true",
    "null",
    "[]",
    "\"assert\"",
    "{\"assert\":true",
    "{\"assert\":true}}",
    "{\"assert\":true} x",
    "{\"assert\":true,}",
    "{,\"assert\":true}",
    "{\"assert\" true}",
    "{\"assert\":}",
    "{\"assert\":null}",
    "{\"assert\":\"true\"}",
    "{\"assert\":1}",
    "{\"assert\":[]}",
    "{\"assert\":[true]}",
    "{\"assert\":{}}",
    "{\"assert\":true,\"x\":null}",
    "{\"assert\":true,\"x\":1}",
    "{\"assert\":true,\"name\":1}",
    "{\"assert\":true,\"message\":[\"m\"]}",
    "{\"assert\":{\"all\":{}}}",
    "{\"assert\":{\"not\":[true]}}",
    "{\"assert\":{\"not\":[true,true]}}",
    "{\"assert\":{\"not\":true,\"exists\":1}}",
    "{\"assert\":{\"eq\":[1]}}",
    "{\"assert\":{\"eq\":[1,2,3]}}",
    "{\"assert\":{\"eq\":{}}}",
    "{\"assert\":{\"EQ\":[1,2]}}",
    "{\"assert\":{\"compare\":{\"left\":1,\"op\":\"==\",\"right\":2}}}",
    "{\"assert\":{\"compare\":{\"left\":1,\"right\":2}}}",
    "{\"assert\":{\"compare\":{\"left\":1,\"op\":{\"eq\":null},\"right\":2}}}",
    "[null,true,null]",
    "{\"assert\":true,\"assert\":true}",
    "{\"assert\":{\"exists\":{\"a\":1,\"\\u0061\":2}}}",
    "{\"assert\":{\"compare\":{\"left\":1,\"op\":\"eq\",\"right\":2,\"left\":1}}}",
    "{\"assert\":{\"for_all\":{\"in\":{\"a\":1,\"a\":1},\"as\":\"b\",\"that\":true}}}",
    "{\"assert\":{\"compare\":{\"left\":1,\"op\":\"eq\",\"right\":2,\"x\":0}}}",
    "{\"assert\":{\"for_all\":{\"in\":1,\"as\":2,\"that\":true}}}",
    "{\"assert\":{\"for_all\":{\"in\":1,\"as\":\"b\"}}}",
    "\u{FEFF}{\"assert\":true}",
    "{\"assert\":true}\u{A0}",
];

/// Bytes that are not UTF-8, in a string and outside of one.
fn not_text() -> Vec<TextCase> {
    let texts: [&[u8]; 5] = [
        b"{\"assert\":{\"exists\":\"\xff\"}}",
        b"{\"assert\":{\"exists\":\"\xed\xa0\x80\"}}",
        b"{\"assert\":{\"exists\":\"\xc3\"}}",
        b"{\"name\":\"\xf4\x90\x80\x80\",\"assert\":true}",
        b"{\"assert\":true}\xff",
    ];
    texts.map(|text| TextCase::new(text, Expect::Number(31))).into()
}

fn nested() -> Vec<TextCase> {
    let levels = [MAX_JSON_NESTING - 1, MAX_JSON_NESTING, MAX_JSON_NESTING + 1, 2 * MAX_JSON_NESTING, 3 * MAX_JSON_NESTING];
    let expect = |levels: usize| Expect::Number(if levels > MAX_JSON_NESTING { 31 } else { 32 });
    let cases = levels.map(|levels| {
        let texts = [by_arrays(&mut Random::new(levels as u64), levels), by_not(levels)];
        texts.map(|text| TextCase::new(text, expect(levels)))
    });
    cases.concat()
}

/// Objects of thousands of keys, of which two at a known distance are one key, or none: refused as too large, or as no such JSON.
fn many_keys() -> Vec<TextCase> {
    let count = 5_000;
    let pairs =
        [(0, 1), (0, 4_999), (1_022, 1_023), (1_023, 1_024), (1_023, 2_048), (0, 1_024), (2_047, 2_048), (4_095, 4_096), (4_998, 4_999)];
    let text = |twice: Option<(usize, usize)>| {
        let name = |index: usize| match twice {
            Some((one, other)) if index == other => one,
            _ => index,
        };
        let members: Vec<String> = (0..count).map(|index| format!("\"{}\":0", name(index))).collect();
        of_value(&format!("{{{}}}", members.join(",")))
    };
    let twice = pairs.map(|pair| TextCase::new(text(Some(pair)), Expect::Number(31)));
    [vec![TextCase::new(text(None), Expect::Number(32))], twice.to_vec()].concat()
}

/// Each byte at the places where one may decide: before, in and after a value, in a string, after a backslash and in a number.
fn bytes() -> Vec<TextCase> {
    let places: [(&[u8], &[u8]); 7] = [
        (b"", b"{\"assert\":true}"),
        (b"{\"assert\":true}", b""),
        (b"{\"assert\":{\"exists\":", b"}}"),
        (b"{\"assert\":{\"exists\":[1", b"2]}}"),
        (b"{\"assert\":{\"exists\":\"", b"\"}}"),
        (b"{\"assert\":{\"exists\":\"\\", b"\"}}"),
        (b"{\"assert\":{\"exists\":\"\\u00", b"0\"}}"),
    ];
    let with = |(before, after): (&[u8], &[u8]), byte: u8| TextCase::new([before, &[byte], after].concat(), Expect::Anything);
    places.into_iter().flat_map(|place| (0..=255).map(move |byte| with(place, byte))).collect()
}
