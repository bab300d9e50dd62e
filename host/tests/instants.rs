//! The fixed list of instants (host/vectors/instants.txt) replayed through the crate.

mod support;

use entity_rules::limits::RESULT_BYTES;
use entity_rules::{
    Condition, DefectNumber, Instant, Kind, Rule, Schema, Semantics, check_rule, instant, raw,
};
use support::{Random, line, list, take};

/// One case: a text, and its fields if it is an instant.
struct Case<'a> {
    text: &'a [u8],
    fields: Option<[u32; 7]>,
}

impl Case<'_> {
    fn expected(&self) -> Option<Instant> {
        let [year, month, day, hour, minute, second, nanoseconds] = self.fields?;
        Some(Instant {
            year,
            month,
            day,
            hour,
            minute,
            second,
            nanoseconds,
        })
    }
}

/// Calls the function on every case of the list.
fn for_each_case(mut look: impl FnMut(&Case)) {
    let list = list("instants.txt");
    let mut rest = list.as_slice();
    let (mut count, mut instants) = (0, 0);
    while !rest.is_empty() {
        let numbers = line(&mut rest).split(',').map(str::parse);
        let numbers: Vec<u32> = numbers.collect::<Result<_, _>>().expect("numbers");
        let [length, number, fields @ ..] = numbers.as_slice() else {
            panic!("a case has nine numbers");
        };
        let text = take(&mut rest, u64::from(*length));
        assert_eq!(take(&mut rest, 1), b"\n");
        let fields: [u32; 7] = fields.try_into().expect("seven fields");
        let fields = match number {
            0 => Some(fields),
            _ => {
                assert_eq!((*number, fields), (20, [0; 7]));
                None
            }
        };
        look(&Case { text, fields });
        count += 1;
        instants += usize::from(fields.is_some());
    }
    assert_eq!((count, instants), (1_121, 542));
}

#[test]
fn the_typed_function_reads_every_case() {
    for_each_case(|case| assert_eq!(instant(case.text), case.expected()));
}

#[test]
fn the_c_function_answers_every_case_and_keeps_the_other_bytes() {
    for_each_case(|case| {
        let mut fields = [0xBB; RESULT_BYTES + 9];
        let number = raw::instant(case.text, &mut fields);
        let mut expected = [0xBB; RESULT_BYTES + 9];
        for (bytes, field) in expected.chunks_mut(4).zip(case.fields.iter().flatten()) {
            bytes.copy_from_slice(&field.to_le_bytes());
        }
        assert_eq!(number, if case.fields.is_some() { 0 } else { 20 });
        assert_eq!(fields, expected);
    });
}

#[test]
fn short_fields_are_refused_and_kept() {
    for_each_case(|case| {
        for bytes in [0, 1, RESULT_BYTES - 1] {
            let mut fields = vec![0xBB; bytes];
            assert_eq!(raw::instant(case.text, &mut fields), 3);
            assert!(fields.iter().all(|&byte| byte == 0xBB));
        }
    });
}

/// An operand of `before` is good exactly if it is an instant, as long as it is a text that begins no reference.
#[test]
fn a_rule_takes_the_same_texts() {
    let schema = Schema::new().sheet().expect("a small schema");
    for_each_case(|case| {
        let Ok(text) = std::str::from_utf8(case.text) else {
            assert_eq!(case.fields, None);
            return;
        };
        assert!(!text.starts_with('$'));
        let rule = Rule::new(Condition::before(text, "2024-01-01")).sheet();
        let rule = rule.expect("a small rule");
        let verdict = check_rule(Kind::Invariant, Semantics::Kernel1, "r", &schema, &rule);
        let verdict = verdict.expect("sheets that are read");
        let defect = verdict.defect().map(|defect| defect.number);
        let expected = case.fields.is_none().then_some(DefectNumber::Instant);
        assert_eq!(defect, expected, "{text:?}");
    });
}

#[test]
fn what_is_displayed_is_read_again() {
    for_each_case(|case| {
        if let Some(expected) = case.expected() {
            let text = expected.to_string();
            assert_eq!(instant(&text), Some(expected), "{text}");
            assert!(text.ends_with('Z') && !text.contains("0Z") || expected.nanoseconds == 0);
        }
    });
    let day = instant("0007-01-02").expect("an instant");
    assert_eq!(day.to_string(), "0007-01-02T00:00:00Z");
    assert_eq!(format!("{day:>22}"), "  0007-01-02T00:00:00Z");
    let nanoseconds = 10;
    let least = Instant { nanoseconds, ..day };
    assert_eq!(least.to_string(), "0007-01-02T00:00:00.00000001Z");
}

/// Fields of one width each have the order of their text.
#[test]
fn instants_order_year_first() {
    let mut all = Vec::new();
    for_each_case(|case| {
        if let Some([year, month, day, hour, minute, second, nanoseconds]) = case.fields {
            let text = format!("{year:04}{month:02}{day:02}{hour:02}{minute:02}{second:02}");
            all.push((instant(case.text), format!("{text}{nanoseconds:09}")));
        }
    });
    for (one, text) in &all {
        for (other, other_text) in &all {
            assert_eq!(one.cmp(other), text.cmp(other_text));
        }
    }
    let ordered = [
        "2023-12-31T23:59:59.999999999",
        "2023-12-31t23:59:60",
        "2024-01-01",
        "2024-01-01 00:00:00.000000001z",
        "2024-01-01T00:00:01",
    ];
    assert!(ordered.map(instant).is_sorted_by(|one, other| one < other));
    let spellings = ["2024-01-01", "\u{3000}2024-01-01 00:00:00.000Z\n"];
    assert_eq!(instant(spellings[0]), instant(spellings[1]));
}

#[test]
fn any_bytes_have_an_answer() {
    let mut random = Random(0x5EED_0020);
    for _ in 0..10_000 {
        let length = random.below(40);
        let byte = |_| match random.below(30) {
            0 => random.below(256) as u8,
            _ => random.pick(b"0123456789--::T.Z "),
        };
        let text: Vec<u8> = (0..length).map(byte).collect();
        let mut fields = vec![0xBB; random.pick(&[0, 27, 28, 30])];
        let number = raw::instant(&text, &mut fields);
        assert!(matches!(
            (number, fields.len()),
            (3, 0 | 27) | (0 | 20, 28 | 30)
        ));
        assert!(fields.iter().skip(28).all(|&byte| byte == 0xBB));
        assert!(number == 0 || fields.iter().all(|&byte| byte == 0xBB));
        assert!(instant(&text).is_none() || fields.len() < 28 || number == 0);
    }
}
