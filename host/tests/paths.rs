//! The fixed list of keys (host/vectors/paths.txt) replayed through the crate, and the edges of docs/FORMAT.md, "Keys".

mod support;

use entity_rules::limits::{MAX_KEY_BYTES, RESULT_BYTES};
use entity_rules::{
    Condition, Detail, Field, FieldKind, Kind, PathVerdict, Reader, ReferenceFault, Refusal, Rule,
    Schema, SchemaSheet, Semantics, check_path, check_rule, raw,
};
use std::collections::BTreeSet;
use support::{Random, line, list, take};

/// One case: a call, and the three numbers of its answer that may differ from 0.
struct Case<'a> {
    semantics: u64,
    reader: u64,
    path: &'a [u8],
    schema: &'a [u8],
    number: u32,
    detail: u32,
    passed: u32,
}

impl Case<'_> {
    fn settings(&self) -> Option<(Semantics, Reader)> {
        let semantics = Semantics::from_number(self.semantics.try_into().ok()?)?;
        let reader = Reader::from_number(self.reader.try_into().ok()?)?;
        Some((semantics, reader))
    }

    fn expected(&self) -> Result<PathVerdict, Refusal> {
        match self.number {
            0 => Ok(PathVerdict::Accepted),
            1 => Err(Refusal::Setting),
            2 => Err(Refusal::Path),
            4 => Err(Refusal::SchemaSheet),
            18 => {
                let fault = ReferenceFault::from_number(self.detail);
                Ok(PathVerdict::Defect(fault.expect("a detail of 18")))
            }
            other => panic!("{other} is not an answer to a key"),
        }
    }
}

/// Calls the function on every case of the list.
fn for_each_case(mut look: impl FnMut(&Case)) {
    let list = list("paths.txt");
    let mut rest = list.as_slice();
    let mut count = 0;
    while !rest.is_empty() {
        let numbers = line(&mut rest).split(',').map(str::parse);
        let numbers: Vec<u64> = numbers.collect::<Result<_, _>>().expect("numbers");
        let [semantics, reader, path, schema, number, detail, passed] = numbers[..] else {
            panic!("a case has seven numbers");
        };
        let path = take(&mut rest, path);
        assert_eq!(take(&mut rest, 1), b"\n");
        let [number, detail, passed] =
            [number, detail, passed].map(|number| u32::try_from(number).expect("32 bits"));
        look(&Case {
            semantics,
            reader,
            path,
            schema: take(&mut rest, schema),
            number,
            detail,
            passed,
        });
        count += 1;
    }
    assert_eq!(count, 2_392);
}

#[test]
fn the_typed_function_answers_every_case() {
    for_each_case(|case| match case.settings() {
        None => assert_eq!(case.expected(), Err(Refusal::Setting)),
        Some((semantics, reader)) => assert_eq!(
            check_path(semantics, reader, case.path, case.schema),
            case.expected()
        ),
    });
}

#[test]
fn the_c_function_answers_every_case_and_keeps_the_other_bytes() {
    for_each_case(|case| {
        let mut result = [0xBB; RESULT_BYTES + 9];
        let number = raw::path(
            case.semantics,
            case.reader,
            case.path,
            case.schema,
            &mut result,
        );
        assert_eq!(number, case.number);
        let numbers = [0, 1, 2, 3, 4, 5, 6].map(|index| raw::field(&result, index));
        let expected = [case.number, 0, case.detail, 0, 0, case.passed, 0];
        assert_eq!(numbers, expected);
        assert_eq!(result[RESULT_BYTES..], [0xBB; 9]);
    });
}

#[test]
fn a_short_result_is_refused_and_kept() {
    for_each_case(|case| {
        for bytes in [0, 1, RESULT_BYTES - 1] {
            let mut result = vec![0xBB; bytes];
            let number = raw::path(
                case.semantics,
                case.reader,
                case.path,
                case.schema,
                &mut result,
            );
            let earlier = matches!(case.number, 1 | 2);
            assert_eq!(number, if earlier { case.number } else { 3 });
            assert!(result.iter().all(|&byte| byte == 0xBB));
        }
    });
}

#[test]
fn the_list_has_every_detail_of_both_readers() {
    let mut seen = BTreeSet::new();
    for_each_case(|case| {
        if case.number == 18 && case.semantics > 1 {
            seen.insert((case.reader, case.detail));
        }
    });
    let kernel = (1..=10).map(|detail| (1, detail));
    let projection = (1..=10).chain([13]).map(|detail| (2, detail));
    assert!(seen.into_iter().eq(kernel.chain(projection)));
}

/// A key that the kernel reads is a reference without its root: the details are those of a rule.
#[test]
fn a_key_is_a_reference_without_its_root() {
    let mut compared = 0;
    for_each_case(|case| {
        let Some((semantics, Reader::Kernel)) = case.settings() else {
            return;
        };
        let Ok(path) = std::str::from_utf8(case.path) else {
            return;
        };
        let rule = Rule::new(Condition::exists(format!("$fields.{path}").as_str()));
        let Ok(rule) = rule.sheet() else {
            return;
        };
        let verdict = check_rule(Kind::Invariant, semantics, "r", case.schema, &rule);
        let detail = verdict.map(|verdict| verdict.defect().map(|defect| defect.detail));
        let expected = case
            .expected()
            .map(|verdict| verdict.fault().map(Detail::Reference));
        assert_eq!(detail, expected);
        compared += 1;
    });
    assert_eq!(compared, 982);
}

fn schema() -> SchemaSheet {
    let bar = Field::element(FieldKind::Object).property(Field::new("mark", FieldKind::String));
    Schema::new()
        .field(Field::new("name", FieldKind::String))
        .field(Field::new("bars", FieldKind::Array).items(bar))
        .sheet()
        .expect("a small schema")
}

#[test]
fn a_text_has_no_length_for_a_projection() {
    use ReferenceFault::{AfterCount, NoMember, TextCount};
    for (semantics, reader, path, expected) in [
        (Semantics::Service1, Reader::Kernel, "name.count", None),
        (
            Semantics::Service1,
            Reader::Projection,
            "name.count",
            Some(TextCount),
        ),
        (
            Semantics::Service2,
            Reader::Kernel,
            "name.count.x",
            Some(AfterCount),
        ),
        (
            Semantics::Service2,
            Reader::Projection,
            "name.count.x",
            Some(TextCount),
        ),
        (
            Semantics::Service3,
            Reader::Projection,
            "bars.0.mark.count",
            Some(TextCount),
        ),
        (Semantics::Service3, Reader::Projection, "bars.count", None),
        (
            Semantics::Kernel1,
            Reader::Kernel,
            "name.count",
            Some(NoMember),
        ),
        (
            Semantics::Kernel1,
            Reader::Projection,
            "name.count",
            Some(NoMember),
        ),
    ] {
        let verdict = check_path(semantics, reader, path, &schema()).expect("a verdict");
        assert_eq!(verdict.fault(), expected, "{semantics} {reader} {path}");
    }
}

#[test]
fn lengths_and_text() {
    let answer = |path: &[u8]| check_path(Semantics::Service1, Reader::Projection, path, &schema());
    let unknown = Ok(PathVerdict::Defect(ReferenceFault::UnknownRoot));
    assert_eq!(answer(&[b'l'; MAX_KEY_BYTES]), unknown);
    assert_eq!(answer(&[b'l'; MAX_KEY_BYTES + 1]), Err(Refusal::Path));
    assert_eq!(answer(b"\xFF"), Err(Refusal::Path));
    assert_eq!(
        answer(b""),
        Ok(PathVerdict::Defect(ReferenceFault::EmptyPath))
    );
    let refused = check_path(Semantics::Kernel1, Reader::Kernel, "name", b"");
    assert_eq!(refused, Err(Refusal::SchemaSheet));
}

/// Whatever is handed over, the answer is one of the format's.
#[test]
fn the_c_function_answers_anything() {
    let mut random = Random(0x5EED_0008);
    let good = schema();
    for _ in 0..20_000 {
        let mut schema = Vec::from(good.clone());
        if random.chance(2) {
            let at = random.below(schema.len());
            schema[at] = random.below(256) as u8;
        }
        let bytes = random.pick(&[0, 3, 12, 512, 513]);
        let path: Vec<u8> = (0..bytes)
            .map(|_| random.pick(b"namebrscout.0\xC3\xA9"))
            .collect();
        let (semantics, reader) = (random.below(6) as u64, random.below(4) as u64);
        let mut result = vec![0xBB; random.pick(&[28, 28, 28, 29, 27, 0])];
        let number = raw::path(semantics, reader, &path, &schema, &mut result);
        assert!(matches!(number, 0..=4 | 18), "{number}");
        if result.len() < RESULT_BYTES {
            assert!((1..=3).contains(&number) && result.iter().all(|&byte| byte == 0xBB));
        } else {
            assert_eq!(raw::field(&result, 0), number);
            assert_eq!(raw::field(&result, 5), u32::from(number == 0));
        }
    }
}
