//! The fixed list of answers (host/vectors/answers.txt) replayed through the crate, and the format's worked example.

use entity_rules::entries::{read_rule, read_schema};
use entity_rules::limits::{PATH_BYTES, RESULT_BYTES};
use entity_rules::{
    CollectionFault, Defect, DefectNumber, Detail, Family, InstantFault, Kind, ReferenceFault,
    Refusal, Semantics, Side, Verdict, check, check_rule, check_template, raw,
};
use std::collections::BTreeSet;

/// One case: the call that a `check.in` describes, and the line that answers it.
struct Case<'a> {
    kind: u64,
    semantics: u64,
    label: &'a [u8],
    schema: &'a [u8],
    rule: &'a [u8],
    numbers: [u32; 6],
    path: &'a [u8],
}

fn numeral(bytes: &mut &[u8], end: u8) -> u64 {
    let at = bytes
        .iter()
        .position(|&byte| byte == end)
        .expect("the end of a numeral");
    let digits = std::str::from_utf8(&bytes[..at]).expect("digits");
    *bytes = &bytes[at + 1..];
    digits.parse().expect("a numeral")
}

fn take<'a>(bytes: &mut &'a [u8], count: u64) -> &'a [u8] {
    let (taken, rest) = bytes.split_at(usize::try_from(count).expect("a count"));
    *bytes = rest;
    taken
}

impl<'a> Case<'a> {
    fn new(mut file: &'a [u8], mut line: &'a [u8]) -> Self {
        let [kind, semantics, label, schema, rule] = [(); 5].map(|()| numeral(&mut file, b','));
        let label = take(&mut file, label);
        assert_eq!(take(&mut file, 1), b"\n");
        let (schema, rule) = (take(&mut file, schema), take(&mut file, rule));
        assert!(file.is_empty());
        let numbers = [(); 6].map(|()| u32::try_from(numeral(&mut line, b',')).expect("32 bits"));
        let path = line.strip_suffix(b"\n").expect("the end of the line");
        Self {
            kind,
            semantics,
            label,
            schema,
            rule,
            numbers,
            path,
        }
    }

    fn settings(&self) -> Option<(Kind, Semantics)> {
        let kind = Kind::from_number(self.kind.try_into().ok()?)?;
        let semantics = Semantics::from_number(self.semantics.try_into().ok()?)?;
        Some((kind, semantics))
    }

    fn is_template(&self) -> bool {
        self.rule.first() == Some(&b'T')
    }

    /// The verdict or refusal that the line stands for.
    fn expected(&self) -> Result<Verdict, Refusal> {
        let [number, family, detail, place, over_place, passed] = self.numbers;
        Ok(match number {
            0 => Verdict::Accepted { passed },
            1 => return Err(Refusal::Setting),
            2 => return Err(Refusal::Label),
            4 => return Err(Refusal::SchemaSheet),
            5 => return Err(Refusal::RuleSheet),
            _ => {
                let number = DefectNumber::from_number(number).expect("a defect's number");
                Verdict::Defect(Defect {
                    number,
                    family: Family::from_number(family).expect("a family"),
                    detail: Detail::from_numbers(number, detail).expect("a detail"),
                    place,
                    over_place: Some(over_place).filter(|&place| place != 0),
                    passed,
                    path: String::from_utf8(self.path.to_vec()).expect("a path is UTF-8"),
                    message: String::new(),
                })
            }
        })
    }
}

/// Calls the function on every case of the list.
fn for_each_case(mut look: impl FnMut(&Case)) {
    let list = concat!(env!("CARGO_MANIFEST_DIR"), "/vectors/answers.txt");
    let list = std::fs::read(list).expect("the list of answers");
    let mut rest = list.as_slice();
    while rest.first() == Some(&b'#') {
        let end = rest
            .iter()
            .position(|&byte| byte == b'\n')
            .expect("the end of a comment");
        rest = &rest[end + 1..];
    }
    let mut count = 0;
    while !rest.is_empty() {
        let counts = (numeral(&mut rest, b','), numeral(&mut rest, b'\n'));
        let file = take(&mut rest, counts.0);
        look(&Case::new(file, take(&mut rest, counts.1)));
        count += 1;
    }
    assert_eq!(count, 5_427);
}

/// An answer without its message, of which the list says nothing.
fn unsaid(answer: Result<Verdict, Refusal>) -> Result<Verdict, Refusal> {
    answer.map(|verdict| match verdict {
        Verdict::Defect(defect) => Verdict::Defect(Defect {
            message: String::new(),
            ..defect
        }),
        accepted => accepted,
    })
}

#[test]
fn the_typed_functions_answer_every_case() {
    for_each_case(|case| {
        let Some((kind, semantics)) = case.settings() else {
            assert_eq!(case.expected(), Err(Refusal::Setting));
            return;
        };
        let expected = case.expected();
        let answer = check(kind, semantics, case.label, case.schema, case.rule);
        assert_eq!(unsaid(answer), expected);
        let same = if case.is_template() {
            check_template
        } else {
            check_rule
        };
        let answer = same(kind, semantics, case.label, case.schema, case.rule);
        assert_eq!(unsaid(answer), expected);
    });
}

#[test]
fn the_other_function_refuses_the_sheet() {
    for_each_case(|case| {
        let Some((kind, semantics)) = case.settings() else {
            return;
        };
        let other = if case.is_template() {
            check_rule
        } else {
            check_template
        };
        let answer = other(kind, semantics, case.label, case.schema, case.rule);
        let expected = match case.expected() {
            Err(refusal @ (Refusal::Label | Refusal::SchemaSheet)) => refusal,
            _ => Refusal::RuleSheet,
        };
        assert_eq!(answer, Err(expected));
    });
}

#[test]
fn the_c_functions_answer_every_case_and_keep_the_other_bytes() {
    for_each_case(|case| {
        let mut path = vec![0xAA; PATH_BYTES + 1];
        let mut result = [0xBB; RESULT_BYTES + 9];
        let function = if case.is_template() {
            raw::template
        } else {
            raw::rule
        };
        let (kind, semantics) = (case.kind, case.semantics);
        let number = function(
            kind,
            semantics,
            case.label,
            case.schema,
            case.rule,
            &mut path,
            &mut result,
        );

        assert_eq!(number, case.numbers[0]);
        for (index, expected) in (0..).zip(case.numbers) {
            assert_eq!(raw::field(&result, index), expected);
        }
        assert_eq!(raw::field(&result, 6) as usize, case.path.len());
        let (written, kept) = path.split_at(case.path.len());
        assert_eq!(written, case.path);
        assert!(kept == vec![0xAA; kept.len()]);
        assert_eq!(result[RESULT_BYTES..], [0xBB; 9]);
    });
}

#[test]
fn short_buffers_are_refused_and_kept() {
    for_each_case(|case| {
        for (path_bytes, result_bytes) in [
            (PATH_BYTES - 1, RESULT_BYTES),
            (PATH_BYTES, RESULT_BYTES - 1),
            (0, 0),
        ] {
            let (mut path, mut result) = (vec![0xAA; path_bytes], vec![0xBB; result_bytes]);
            let (kind, semantics) = (case.kind, case.semantics);
            let number = raw::rule(
                kind,
                semantics,
                case.label,
                case.schema,
                case.rule,
                &mut path,
                &mut result,
            );

            assert_eq!(
                number,
                if case.numbers[0] == 1 || case.numbers[0] == 2 {
                    case.numbers[0]
                } else {
                    3
                }
            );
            assert!(path == vec![0xAA; path_bytes]);
            assert!(result_bytes >= RESULT_BYTES || result.iter().all(|&byte| byte == 0xBB));
        }
    });
}

#[test]
fn the_reader_of_entries_agrees_with_the_refusals() {
    for_each_case(|case| match case.numbers[0] {
        1 | 2 => {}
        4 => assert!(read_schema(case.schema).is_err()),
        5 => assert!(read_schema(case.schema).is_ok() && read_rule(case.rule).is_err()),
        _ => {
            let entries = read_rule(case.rule).expect("a rule sheet that is read");
            assert!(read_schema(case.schema).is_ok());
            let [_, _, _, place, over_place, _] = case.numbers;
            assert!(place as usize <= entries.len() && over_place <= place);
        }
    });
}

#[test]
fn the_list_has_every_number_family_and_detail() {
    let mut seen = BTreeSet::new();
    let mut families = BTreeSet::new();
    for_each_case(|case| {
        if let Ok(Verdict::Defect(defect)) = case.expected() {
            seen.insert((defect.number, defect.detail.number()));
            families.insert(defect.family);
        }
    });
    let details = |number| match number {
        DefectNumber::Operand => Side::ALL.len(),
        // No rule or template asks for a projection's reading.
        DefectNumber::Reference => ReferenceFault::ALL.len() - 1,
        DefectNumber::Instant => InstantFault::ALL.len(),
        DefectNumber::Over => CollectionFault::ALL.len(),
        _ => 1,
    };
    let wanted: usize = DefectNumber::ALL
        .iter()
        .map(|&number| details(number))
        .sum();
    assert_eq!(seen.len(), wanted);
    assert_eq!(families.len(), Family::ALL.len());
}

/// The example of the format's section on the program `rulecheck`.
#[test]
fn the_worked_example() {
    let schema = b"H,0,1,-,0\nF,6,0,1,0,4,-,bars\nF,2,0,0,0,0,-,\n";
    let rule = b"R,-,-,\nC,20,1,b\nV,5,12,$fields.bars\nC,12,0,\nV,5,8,$b.count\nV,4,1,9\n";
    let verdict = check(Kind::Precondition, Semantics::Service1, "r", schema, rule);
    let defect = Defect {
        number: DefectNumber::Reference,
        family: Family::QuantifierBodyScope,
        detail: Detail::Reference(ReferenceFault::NoCount),
        place: 5,
        over_place: Some(3),
        passed: 9,
        path: "r.assert.for_all.that.lt[0]".to_owned(),
        message: "'$b.count' cannot resolve: '$b' is a integer field, so 'count' resolves to nothing; `count` reads a text, an array or a map"
            .to_owned(),
    };
    assert_eq!(verdict, Ok(Verdict::Defect(defect)));
}
