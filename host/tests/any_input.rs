//! Whatever is handed over, the answer is one of the format's, and buffers keep what they should.

mod support;

use entity_rules::limits::{
    CHECK_RESULT_BYTES, EXPLAIN_RESULT_BYTES, JSON_RESULT_BYTES, MARKS_BYTES, PATH_BYTES,
    RESULT_BYTES,
};
use entity_rules::{Kind, Refusal, Semantics, check, check_rule, check_template, raw};
use support::Random;

/// A setting from 1 to `most`, or any number.
fn setting(random: &mut Random, most: usize) -> u64 {
    match random.below(12) {
        0 => random.next(),
        1 => 0,
        _ => random.below(most) as u64 + 1,
    }
}

/// Bytes of all sorts, most of them such as sheets are made of.
fn bytes(random: &mut Random) -> Vec<u8> {
    let length = random.pick(&[0, 1, 10, 60, 300]);
    let byte = |_| match random.below(8) {
        0 => random.below(256) as u8,
        _ => random.pick(b"HFRTCVK,,,,0123-\n\n$ab."),
    };
    (0..length).map(byte).collect()
}

/// A sheet that is well formed, or damaged at some byte, or no sheet at all.
fn sheet(random: &mut Random, good: &[&str]) -> Vec<u8> {
    let mut sheet = random.pick(good).as_bytes().to_vec();
    match random.below(4) {
        0 | 1 => {}
        2 => {
            let at = random.below(sheet.len());
            sheet[at] = random.below(256) as u8;
        }
        _ => sheet = bytes(random),
    }
    sheet
}

const SCHEMAS: [&str; 3] = [
    "H,0,0,-,0\n",
    "H,1,1,0,0\nF,6,0,1,0,1,-,a\nF,1,0,0,0,0,-,\n",
    "H,0,1,1,1\nF,7,0,0,1,1,-,o\nF,11,0,0,0,1,1,ut\nF,8,0,0,0,1,-,j\n",
];

const RULES: [&str; 4] = [
    "R,1,-,n\nC,2,2,\nC,5,0,\nV,5,9,$fields.a\nC,20,1,b\nV,5,9,$fields.a\nC,19,0,\nV,5,4,$b.0\n",
    "R,-,-,\nC,6,0,\nV,5,10,2024-02-29\nV,5,9,$fields.a\n",
    "T\nV,7,2,\nK,1,a\nV,5,13,$fields.o.u.t\nK,1,b\nV,6,1,\nV,4,5,1e400\n",
    "T\nV,5,6,$state\n",
];

/// What a call to a C function is given.
struct Call {
    kind: u64,
    semantics: u64,
    label: &'static [u8],
    schema: Vec<u8>,
    rule: Vec<u8>,
    path: Vec<u8>,
    result: Vec<u8>,
}

impl Call {
    fn any(random: &mut Random) -> Self {
        let (path, result) = (PATH_BYTES, RESULT_BYTES);
        Self {
            kind: setting(random, 8),
            semantics: setting(random, 4),
            label: random.pick(&[
                b"",
                b"label",
                b"\xC3\xA9",
                &[b'l'; 256],
                &[b'l'; 257],
                b"\xC0\x80",
            ]),
            schema: sheet(random, &SCHEMAS),
            rule: sheet(random, &RULES),
            path: vec![0xAA; random.pick(&[path, path, path + 7, path - 1, 0])],
            result: vec![0xBB; random.pick(&[result, result, result + 1, result - 1, 0])],
        }
    }

    fn run(&mut self, random: &mut Random) -> u32 {
        let Self {
            kind,
            semantics,
            label,
            schema,
            rule,
            path,
            result,
        } = self;
        let function = random.pick(&[raw::rule, raw::template]);
        function(*kind, *semantics, label, schema, rule, path, result)
    }
}

#[test]
fn the_c_functions_answer_anything() {
    let mut random = Random(0x5EED_0005);
    let kept = vec![0xAA; PATH_BYTES + 7];
    let mut seen = [0; 23];
    for _ in 0..10_000 {
        let mut call = Call::any(&mut random);
        let number = call.run(&mut random);
        let Call { path, result, .. } = call;

        assert!(matches!(number, 0..=5 | 11..=22), "{number}");
        seen[number as usize] += 1;
        match result.len() < RESULT_BYTES {
            true => assert!((1..=3).contains(&number) && result == vec![0xBB; result.len()]),
            false => assert_eq!(raw::field(&result, 0), number),
        }
        let written = if number > 5 {
            raw::field(&result, 6) as usize
        } else {
            0
        };
        assert!(path[written..] == kept[written..path.len()]);
        assert!(result.iter().skip(RESULT_BYTES).all(|&byte| byte == 0xBB));
    }
    assert!(seen[..=5].iter().all(|&count| count > 50), "{seen:?}");
}

#[test]
fn a_message_goes_with_the_answer_of_the_check() {
    let mut random = Random(0x5EED_0008);
    let mut seen = [0; 2];
    for _ in 0..10_000 {
        let Call {
            kind,
            semantics,
            label,
            schema,
            rule,
            ..
        } = Call::any(&mut random);
        let (mut path, mut marks) = (vec![0xAA; PATH_BYTES], vec![0xCC; MARKS_BYTES]);
        let mut result = [0xBB; EXPLAIN_RESULT_BYTES];
        let number = raw::check(
            kind,
            semantics,
            label,
            b"",
            &schema,
            &rule,
            &mut path,
            &mut marks,
            &mut result,
        );
        let checked = (number, result[..CHECK_RESULT_BYTES].to_vec(), path, marks);

        let (mut path, mut marks) = (vec![0xAA; PATH_BYTES], vec![0xCC; MARKS_BYTES]);
        let mut message = vec![0xDD; random.pick(&[0, 10, 50, 100, 1_000])];
        let number = raw::explain(
            kind,
            semantics,
            label,
            b"",
            &schema,
            &rule,
            &mut path,
            &mut marks,
            &mut message,
            &mut result,
        );
        let explained = (number, result[..CHECK_RESULT_BYTES].to_vec(), path, marks);
        assert!(explained == checked, "{number}");

        let [short, length] = [8, 9].map(|index| raw::field(&result, index) as usize);
        let is_defect = (11..=22).contains(&number);
        assert_eq!(short == 39, is_defect && length > message.len());
        assert!(short == 0 || short == 39);
        assert!(is_defect || length == 0);
        let written = if short == 0 { length } else { 0 };
        assert!(message[written..].iter().all(|&byte| byte == 0xDD));
        assert!(std::str::from_utf8(&message[..written]).is_ok());
        seen[usize::from(short == 39)] += usize::from(is_defect);
    }
    assert!(seen.iter().all(|&count| count > 100), "{seen:?}");
}

#[test]
fn the_typed_functions_answer_anything() {
    let mut random = Random(0x5EED_0006);
    for _ in 0..5_000 {
        let (kind, semantics) = (random.pick(Kind::ALL), random.pick(Semantics::ALL));
        let (label, schema, rule) = (
            bytes(&mut random),
            sheet(&mut random, &SCHEMAS),
            sheet(&mut random, &RULES),
        );
        for function in [check, check_rule, check_template] {
            match function(kind, semantics, &label, &schema, &rule) {
                Ok(verdict) => assert!(verdict.defect().is_none_or(|defect| defect.place > 0)),
                Err(refusal) => assert!(matches!(
                    refusal,
                    Refusal::Label | Refusal::SchemaSheet | Refusal::RuleSheet
                )),
            }
        }
    }
}

const TEXTS: [&str; 3] = [
    r#"{"name": "n", "assert": {"all": [{"exists": "$fields.a"}, {"for_all": {"in": "$fields.a", "as": "b", "that": {"truthy": "$b.0"}}}]}}"#,
    r#"{"assert":{"compare":{"op":"lte","left":{"a":[1,null]},"right":-0.5E+3}},"message":"\u00e9\ud83d\ude00"}"#,
    r#"{"assert":true}"#,
];

#[test]
fn the_conversions_answer_anything() {
    let mut random = Random(0x5EED_0009);
    let mut seen = [0; 34];
    for _ in 0..10_000 {
        let mut made = vec![0xAA; random.pick(&[0, 13, 14, 15, 150, 30_000])];
        let mut result = [0xBB; JSON_RESULT_BYTES + 1];
        let number = match random.chance(3) {
            true => raw::to_json(&sheet(&mut random, &RULES), &mut made, &mut result),
            false => raw::from_json(&sheet(&mut random, &TEXTS), &mut made, &mut result),
        };
        assert!(matches!(number, 0 | 5 | 31 | 33), "{number}");
        seen[number as usize] += 1;
        let [told, length] = [0, 1].map(|index| raw::field(&result, index));
        assert_eq!((told, result[JSON_RESULT_BYTES]), (number, 0xBB));
        assert!(number == 0 || length == 0);
        let (made, kept) = made.split_at(length as usize);
        assert!(std::str::from_utf8(made).is_ok());
        assert!(kept.iter().all(|&byte| byte == 0xAA));
    }
    let all = [0, 5, 31, 33].map(|number| seen[number]);
    assert!(all.iter().all(|&count| count > 100), "{all:?}");
}

#[test]
fn a_field_lies_in_the_result_or_is_0() {
    let mut random = Random(0x5EED_0007);
    for _ in 0..10_000 {
        let result = bytes(&mut random);
        let any = random.next() as u32;
        let index = random.pick(&[0, 1, 6, 7, 15, 1 << 30, u32::MAX, any]);
        let start = index as usize * 4;
        let expected = result.get(start..start + 4).map_or(0, |four| {
            u32::from_le_bytes(four.try_into().expect("four bytes"))
        });
        assert_eq!(raw::field(&result, index), expected);
    }
}
