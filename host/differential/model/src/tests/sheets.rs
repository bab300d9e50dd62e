//! Well-formed sheets and every limit.

use super::*;
use crate::trees::{Data, Holder, Operator};

fn is_schema(sheet: &str) -> bool {
    decode_schema(sheet.as_bytes()).is_some()
}

fn is_rule(sheet: &str) -> bool {
    decode_rule(sheet.as_bytes()).is_some()
}

fn is_value(value: &str) -> bool {
    is_rule(&format!("T\n{value}"))
}

#[test]
fn heads_of_a_schema() {
    for sheet in ["H,0,0,-,0\n", "H,1,0,0,0\n", "H,1,0,1,0\n"] {
        assert!(is_schema(sheet), "{sheet}");
    }
    for sheet in [
        "",
        "H",
        "H,0,0,-,0",
        "H,0,0,-,0,\n",
        "H,0,0,-,0\r\n",
        "H,0,0,-,1\n",
        "H,0,0,-,1\nF,1,0,0,0,1,-,a\n",
        "H,2,0,-,0\n",
        "H,-,0,-,0\n",
        "H,0,-,-,0\n",
        "H,0,00,-,0\n",
        "H,0,,-,0\n",
        "H,0,0,--,0\n",
        "H,0,0,-0,0\n",
        "H,0,4294967296,-,0\n",
        "H,0,18446744073709551616,-,0\n",
        "h,0,0,-,0\n",
        "H,0,0,-,0\n\n",
        "H,0,0,-,0\nF,1,0,0,0,1,-,a\n",
        " H,0,0,-,0\n",
    ] {
        assert!(!is_schema(sheet), "{sheet}");
    }
}

#[test]
fn fields() {
    let one = |field: &str| is_schema(&format!("H,0,1,-,0\n{field}"));
    for field in [
        "F,1,0,0,0,1,-,a\n",
        "F,12,1,0,0,0,-,\n",
        "F,1,0,0,0,0,0,\n",
        "F,1,0,0,0,3,2,a,\n,\n\n",
        "F,2,1,1,1,1,1,at\nF,9,0,0,0,0,1,t\nF,1,0,0,0,0,-,\n",
    ] {
        assert!(one(field), "{field}");
    }
    for field in [
        "F,0,0,0,0,1,-,a\n",
        "F,13,0,0,0,1,-,a\n",
        "F,01,0,0,0,1,-,a\n",
        "F,1,2,0,0,1,-,a\n",
        "F,1,-,0,0,1,-,a\n",
        "F,1,0,2,0,1,-,a\n",
        "F,1,0,1,0,1,-,a\n",
        "F,1,0,0,1,1,-,a\n",
        "F,1,0,0,0,-,-,\n",
        "F,1,0,0,0,1,-a\n",
        "F,1,0,0,0,1,-,a",
        "F,1,0,0,0,1,-,\n",
        "F,1,0,0,0,1,-,ab\n",
        "F,1,0,0,0,4294967297,-,a\n",
        "F,4294967297,0,0,0,1,-,a\n",
        "F,6,0,1,0,1,-,a\nF,1,0,0,0,1,-,b\n",
        "F,1,0,0,0,+1,-,a\n",
        "F,1,0,0,0, 1,-,a\n",
    ] {
        assert!(!one(field), "{field}");
    }
}

#[test]
fn texts_are_utf8_each_for_itself() {
    let split = [
        b"H,0,1,-,0\nF,11,0,0,0,1,1,".as_slice(),
        &[0xC3, 0xA9],
        b"\n",
    ]
    .concat();
    assert_eq!(decode_schema(&split), None);
    let whole = [
        b"H,0,1,-,0\nF,11,0,0,0,2,-,".as_slice(),
        &[0xC3, 0xA9],
        b"\n",
    ]
    .concat();
    assert!(decode_schema(&whole).is_some());
    let split = [b"R,1,1,".as_slice(), &[0xC3, 0xA9], b"\nC,1,1,\n"].concat();
    assert_eq!(decode_rule(&split), None);
    for text in [b"V,5,1,\x80\n".as_slice(), b"V,7,1,\nK,1,\xFF\nV,1,0,\n"] {
        assert_eq!(decode_rule(&[b"T\n", text].concat()), None);
    }
}

#[test]
fn sibling_names_rise_by_bytes() {
    let names = |names: [&str; 2]| {
        let fields = names
            .map(|name| format!("F,1,0,0,0,{},-,{name}\n", name.len()))
            .concat();
        (
            is_schema(&format!("H,0,2,-,0\n{fields}")),
            is_schema(&format!("H,0,1,-,0\nF,7,0,0,2,1,-,o\n{fields}")),
        )
    };
    for rising in [
        ["", "a"],
        ["a", "aa"],
        ["B", "a"],
        ["z", "é"],
        ["\u{FFFF}", "\u{10000}"],
    ] {
        assert_eq!(names(rising), (true, true), "{rising:?}");
    }
    for falling in [["a", "a"], ["b", "a"], ["aa", "a"], ["", ""], ["a", ""]] {
        assert_eq!(names(falling), (false, false), "{falling:?}");
    }
    // Record and arguments are two groups; an element is not a sibling of the properties.
    assert!(is_schema("H,0,1,0,1\nF,1,0,0,0,1,-,b\nF,1,0,0,0,1,-,a\n"));
    assert!(is_schema(
        "H,0,1,-,0\nF,6,0,1,1,1,-,a\nF,1,0,0,0,0,-,\nF,1,0,0,0,0,-,\n"
    ));
}

#[test]
fn keys_stand_in_any_order_and_none_twice() {
    let object = |keys: &[&str]| {
        let members: String = keys
            .iter()
            .map(|key| format!("K,{},{key}\nV,1,0,\n", key.len()))
            .collect();
        is_rule(&format!("T\nV,7,{},\n{members}", keys.len()))
    };
    for keys in [
        &["a", "b"][..],
        &["b", "a"],
        &["aa", "a", ""],
        &["b", "c", "a"],
    ] {
        assert!(object(keys), "{keys:?}");
    }
    for keys in [
        &["a", "a"][..],
        &["a", "b", "a"],
        &["b", "a", "a"],
        &["", "a", ""],
    ] {
        assert!(!object(keys), "{keys:?}");
    }
    // An object inside another has keys of its own.
    assert!(is_rule("T\nV,7,1,\nK,1,a\nV,7,1,\nK,1,a\nV,1,0,\n"));
}

#[test]
fn conditions() {
    let v = "V,1,0,\n";
    for condition in [
        "C,1,0,\n".to_owned(),
        "C,1,1,\n".to_owned(),
        "C,2,0,\n".to_owned(),
        "C,3,2,\nC,1,0,\nC,1,0,\n".to_owned(),
        format!("C,18,6,\n{v}{v}"),
        format!("C,20,0,\n{v}C,1,0,\n"),
        format!("C,21,3,a\n.\n{v}C,1,0,\n"),
    ] {
        assert!(is_rule(&rule(&condition)), "{condition}");
    }
    for condition in [
        String::new(),
        "C,0,0,\n".to_owned(),
        "C,1,2,\n".to_owned(),
        "C,1,-,\n".to_owned(),
        "C,1,0\n".to_owned(),
        "C,1,0,x\n".to_owned(),
        "C,22,0,\n".to_owned(),
        "C,2,1,\n".to_owned(),
        "C,2,0,\nC,1,0,\n".to_owned(),
        "C,4,1,\nC,1,0,\n".to_owned(),
        format!("C,5,1,\n{v}"),
        format!("C,6,2,\n{v}{v}"),
        format!("C,8,0,\n{v}"),
        format!("C,18,0,\n{v}{v}"),
        format!("C,18,7,\n{v}{v}"),
        format!("C,19,0,\n{v}{v}"),
        format!("C,20,1,\n{v}C,1,0,\n"),
        format!("C,20,1,b\nC,1,0,\n{v}"),
        format!("C,20,4294967297,b\n{v}C,1,0,\n"),
    ] {
        assert!(!is_rule(&rule(&condition)), "{condition}");
    }
}

#[test]
fn heads_of_a_rule() {
    for sheet in [
        "R,-,-,\nC,1,0,\n",
        "R,0,0,\nC,1,0,\n",
        "R,2,1,a\n\n\nC,1,0,\n",
        "T\nV,1,0,\n",
    ] {
        assert!(is_rule(sheet), "{sheet}");
    }
    for sheet in [
        "",
        "R",
        "R,-,-\nC,1,0,\n",
        "R,-,\nC,1,0,\n",
        "R,-,-,x\nC,1,0,\n",
        "R,-,-,\nV,1,0,\n",
        "R,-,-,\nC,1,0,\nC,1,0,\n",
        "T,\nV,1,0,\n",
        "T\n",
        "T",
        "T\nC,1,0,\n",
        "T\nV,1,0,\nV,1,0,\n",
        "V,1,0,\n",
        "H,0,0,-,0\n",
    ] {
        assert!(!is_rule(sheet), "{sheet}");
    }
}

#[test]
fn values() {
    for value in [
        "V,1,0,\n",
        "V,2,0,\n",
        "V,3,0,\n",
        "V,4,4,-0.5\n",
        "V,5,0,\n",
        "V,5,3,\n,\n\n",
        "V,6,0,\n",
        "V,6,2,\nV,1,0,\nV,1,0,\n",
        "V,7,0,\n",
        "V,7,2,\nK,0,\nV,1,0,\nK,1,a\nV,1,0,\n",
    ] {
        assert!(is_value(value), "{value}");
    }
    for value in [
        "V,0,0,\n",
        "V,8,0,\n",
        "V,1,1,\n",
        "V,1,1,x\n",
        "V,2,1,\n",
        "V,3,-,\n",
        "V,4,0,\n",
        "V,4,2,01\n",
        "V,4,2,1 \n",
        "V,5,2,a\n",
        "V,5,1,a",
        "V,5,01,a\n",
        "V,6,1,\n",
        "V,6,1,\nK,0,\nV,1,0,\n",
        "V,7,1,\nV,1,0,\n",
        "V,7,1,\nK,0,\n",
        "V,7,1,\nK,-,\nV,1,0,\n",
        "V,7,2,\nK,1,a\nV,1,0,\nK,1,a\nV,1,0,\n",
        "V,6,4294967296,\n",
    ] {
        assert!(!is_value(value), "{value}");
    }
}

#[test]
fn texts_of_512_bytes() {
    for (length, fits) in [(511, true), (512, true), (513, false)] {
        let text = "a".repeat(length);
        let digits = "1".repeat(length);
        assert_eq!(is_value(&string(&text)), fits);
        assert_eq!(is_value(&number(&digits)), fits);
        assert_eq!(
            is_value(&format!("V,7,1,\nK,{length},{text}\nV,1,0,\n")),
            fits
        );
        assert_eq!(is_rule(&format!("R,{length},-,{text}\nC,1,0,\n")), fits);
        assert_eq!(is_rule(&format!("R,-,{length},{text}\nC,1,0,\n")), fits);
        assert_eq!(
            is_rule(&rule(&for_all(&text, &string("x"), "C,1,0,\n"))),
            fits
        );
        assert_eq!(
            is_schema(&format!("H,0,1,-,0\nF,1,0,0,0,{length},-,{text}\n")),
            fits
        );
        assert_eq!(
            is_schema(&format!("H,0,1,-,0\nF,1,0,0,0,0,{length},{text}\n")),
            fits
        );
    }
    let both = "a".repeat(1024);
    assert!(is_schema(&format!("H,0,1,-,0\nF,1,0,0,0,512,512,{both}\n")));
    assert!(is_rule(&format!("R,512,512,{both}\nC,1,0,\n")));
}

/// So many fields, with rising names of four bytes.
fn rising_fields(count: usize) -> String {
    (0..count)
        .map(|number| format!("F,2,0,0,0,4,-,{number:04}\n"))
        .collect()
}

#[test]
fn schema_entries_up_to_1024() {
    for (entries, fits) in [(1023, true), (1024, true), (1025, false)] {
        let count = entries - 1;
        let flat = format!("H,0,{count},-,0\n{}", rising_fields(count));
        assert_eq!(is_schema(&flat), fits);
        let arguments = format!(
            "H,0,1,0,{}\n{}{}",
            count - 1,
            rising_fields(1),
            rising_fields(count - 1)
        );
        assert_eq!(is_schema(&arguments), fits);
        let nested = format!(
            "H,0,1,-,0\nF,7,0,0,{},1,-,o\n{}",
            count - 1,
            rising_fields(count - 1)
        );
        assert_eq!(is_schema(&nested), fits);
        let element = format!(
            "H,0,1,0,{}\nF,6,0,1,0,1,-,a\nF,1,0,0,0,0,-,\n{}",
            count - 2,
            rising_fields(count - 2)
        );
        assert_eq!(is_schema(&element), fits);
    }
}

#[test]
fn rule_entries_up_to_2048() {
    for (entries, fits) in [(2047, true), (2048, true), (2049, false)] {
        let count = entries - 2;
        let array = format!("V,6,{count},\n{}", "V,1,0,\n".repeat(count));
        assert_eq!(is_value(&array), fits);
        let all = format!("C,2,{count},\n{}", "C,1,0,\n".repeat(count));
        assert_eq!(is_rule(&rule(&all)), fits);
    }
    let members = |count: usize| {
        (0..count)
            .map(|key| format!("K,3,{key:03}\nV,1,0,\n"))
            .collect::<String>()
    };
    assert!(is_value(&format!(
        "V,6,2,\nV,1,0,\nV,7,1000,\n{}",
        members(1000)
    )));
    let array = |keys: usize, others: usize| {
        format!(
            "V,6,{},\nV,7,{keys},\n{}{}",
            others + 1,
            members(keys),
            "V,1,0,\n".repeat(others)
        )
    };
    assert!(is_value(&array(1000, 45)));
    assert!(!is_value(&array(1000, 46)));
}

/// Entries made by `one` from an index and a text's length, after a head, until there are this many bytes.
fn filled(bytes: usize, head: &str, one: impl Fn(usize, usize) -> String) -> String {
    let mut entries: Vec<String> = Vec::new();
    let mut left = bytes - head.len();
    while left > 300 {
        entries.push(one(entries.len(), 100));
        left -= one(0, 100).len();
    }
    let more = left - one(0, 100).len();
    entries.push(one(entries.len(), 100 + more));
    format!(
        "{}{}",
        head.replace("###", &entries.len().to_string()),
        entries.concat()
    )
}

#[test]
fn bytes_up_to_30000() {
    for (bytes, fits) in [(29_999, true), (30_000, true), (30_001, false)] {
        let sheet = filled(bytes, "T\nV,6,###,\n", |_, length| {
            string(&"a".repeat(length))
        });
        assert_eq!((sheet.len(), is_rule(&sheet)), (bytes, fits));
        let sheet = filled(bytes, "H,0,###,-,0\n", |index, length| {
            format!(
                "F,1,0,0,0,{length},-,{index:03}{}\n",
                "a".repeat(length - 3)
            )
        });
        assert_eq!((sheet.len(), is_schema(&sheet)), (bytes, fits));
    }
}

#[test]
fn nesting() {
    for (deep, fits) in [(63, true), (64, true), (65, false)] {
        let arrays = format!("{}V,1,0,\n", "V,6,1,\n".repeat(deep - 1));
        assert_eq!(is_value(&arrays), fits);
        assert_eq!(is_rule(&rule(&operator(5, &[&arrays]))), fits);
        let objects = format!("{}V,1,0,\n", "V,7,1,\nK,0,\n".repeat(deep - 1));
        assert_eq!(is_value(&objects), fits);
        let elements = format!(
            "H,0,1,-,0\n{}F,1,0,0,0,0,-,\n",
            "F,6,0,1,0,0,-,\n".repeat(deep - 1)
        );
        assert_eq!(is_schema(&elements), fits);
        let properties = format!(
            "H,0,0,0,1\n{}F,1,0,0,0,1,-,p\n",
            "F,7,0,0,1,1,-,p\n".repeat(deep - 1)
        );
        assert_eq!(is_schema(&properties), fits);
    }
    for (deep, fits) in [(255, true), (256, true), (257, false)] {
        assert_eq!(is_rule(&rule(&nots(deep - 1, "C,1,1,\n"))), fits);
        let quantifiers = format!("{}C,1,1,\n", "C,20,1,b\nV,1,0,\n".repeat(deep - 1));
        assert_eq!(is_rule(&rule(&quantifiers)), fits);
    }
}

#[test]
fn writers_write_what_was_read() {
    assert_eq!(
        write_schema(&decode_schema(SCHEMA.as_bytes()).unwrap()),
        SCHEMA.as_bytes()
    );
    let value = format!(
        "V,7,2,\nK,0,\nV,6,3,\nV,1,0,\nV,2,0,\nV,3,0,\nK,2,é\n{}",
        number("-1.5e+7")
    );
    let sheet = format!(
        "R,2,-,é\nC,2,7,\n{}{}{}C,18,4,\n{}{}C,1,0,\n{}C,21,2,b\n\n{}C,4,0,\nC,1,1,\n",
        exists("$id"),
        operator(6, &[&string(""), &value]),
        operator(17, &[&value, &string("$$")]),
        number("1"),
        value,
        operator(19, &[&value]),
        string("\n"),
    );
    assert_eq!(
        String::from_utf8(write_rule(&decode_rule(sheet.as_bytes()).unwrap())).unwrap(),
        sheet
    );
    let template = format!("T\n{value}");
    assert_eq!(
        write_rule(&decode_rule(template.as_bytes()).unwrap()),
        template.as_bytes()
    );
}

/// Every sheet one byte away: the byte at each place left out, replaced, or one put before it.
fn damaged(sheet: &[u8]) -> Vec<Vec<u8>> {
    let mut sheets = Vec::new();
    for at in 0..sheet.len() {
        let (before, after) = (&sheet[..at], &sheet[at + 1..]);
        sheets.push([before, after].concat());
        for byte in *b"0123456789-,\nHFRTCVK$.ab\x80\xC3\xA9" {
            sheets.push([before, &[byte], after].concat());
            sheets.push([before, &[byte], &sheet[at..]].concat());
        }
    }
    sheets
}

#[test]
fn what_decodes_is_the_writing_of_its_tree() {
    let schemas = damaged(b"H,0,2,1,1\nF,6,0,1,0,1,-,a\nF,7,1,0,1,0,2,\xC3\xA9\nF,1,0,0,0,0,-,\nF,11,0,0,0,1,0,b\nF,12,0,0,0,0,-,\n");
    for sheet in &schemas {
        if let Some(schema) = decode_schema(sheet) {
            assert_eq!(&write_schema(&schema), sheet);
        }
    }
    let rules = damaged(b"R,2,-,\xC3\xA9\nC,2,3,\nC,1,0,\nC,20,1,b\nV,5,2,$a\nC,18,2,\nV,4,2,-1\nV,1,0,\nC,8,0,\nV,7,2,\nK,0,\nV,2,0,\nK,1,a\nV,3,0,\nV,6,1,\nV,5,0,\n");
    for sheet in &rules {
        if let Some(rule) = decode_rule(sheet) {
            assert_eq!(&write_rule(&rule), sheet);
        }
    }
    let well_formed = schemas
        .iter()
        .filter(|sheet| decode_schema(sheet).is_some())
        .count();
    assert!(0 < well_formed && well_formed < schemas.len());
    let well_formed = rules
        .iter()
        .filter(|sheet| decode_rule(sheet).is_some())
        .count();
    assert!(0 < well_formed && well_formed < rules.len());
}

#[test]
fn entry_numbers_count_every_entry() {
    let sheet = format!(
        "R,-,-,\n{}",
        operator(8, &[&format!("V,7,1,\nK,0,\n{}", number("1")), &string("")])
    );
    let Some(Sheet::Rule(rule)) = decode_rule(sheet.as_bytes()) else {
        panic!()
    };
    let Operator::Pair(8, values) = &rule.condition.operator else {
        panic!()
    };
    let Data::Object(members) = &values[0].data else {
        panic!()
    };
    assert_eq!(
        (
            rule.condition.entry,
            values[0].entry,
            members[0].1.entry,
            values[1].entry
        ),
        (2, 3, 5, 6)
    );
    let schema = decode_schema(SCHEMA.as_bytes()).unwrap();
    let arguments: Holder = schema.arguments.unwrap();
    assert_eq!(
        (
            schema.record.fields[0].entry,
            schema.record.fields[1].entry,
            arguments.fields[0].entry
        ),
        (2, 5, 20)
    );
}
