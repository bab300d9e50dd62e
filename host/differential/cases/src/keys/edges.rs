//! Keys whose answers are known: those of docs/FORMAT.md, "Keys", and every combination of refusals.

use crate::case::Expect;
use crate::generate::build::{element, field, holder, schema, ARRAY, OBJECT, STRING, UNION};
use crate::keys::generate::{expected, refusing, PLANTS};
use crate::keys::{KeyCase, READERS};
use crate::random::Random;
use model::trees::Field;
use model::write_schema;

/// All known edges.
pub fn edges() -> Vec<KeyCase> {
    [planted(), roots(), combinations(), lengths()].concat()
}

/// Every reader with every semantics.
fn settings() -> impl Iterator<Item = (u64, u64)> {
    READERS.into_iter().flat_map(|reader| (1..=4).map(move |semantics| (semantics, reader)))
}

/// Each planted path at a field of the record, in an object, and in an element where one can be read.
fn planted() -> Vec<KeyCase> {
    let mut cases = Vec::new();
    for (semantics, reader) in settings() {
        for plant in &PLANTS {
            let (kind, tail, _) = plant;
            let tag = (*kind == UNION).then(|| "t".to_owned());
            let leaf = Field { tag, ..field("f", *kind) };
            let object = Field { properties: vec![leaf.clone()], ..field("o", OBJECT) };
            let list = Field { items: element(object.clone()), ..field("l", ARRAY) };
            let ways = [(leaf, format!("f{tail}")), (object, format!("o.f{tail}")), (list, format!("l.0.f{tail}"))];
            for (made, path) in ways.into_iter().take(if semantics == 1 { 2 } else { 3 }) {
                let sheet = write_schema(&schema(holder(false, vec![made]), None));
                cases.push(KeyCase::new(semantics, reader, &path, sheet).expecting(expected(plant, semantics, reader)));
            }
        }
    }
    cases
}

/// What the first segment alone decides, in a closed and in an open record; arguments are not fields of the record.
fn roots() -> Vec<KeyCase> {
    let mut cases = Vec::new();
    for (semantics, reader) in settings() {
        for (path, closed, open) in [
            ("", 1, 1),
            (".", 1, 1),
            (".name", 1, 1),
            ("name", 0, 0),
            ("other", 2, 0),
            ("other..", 2, 0),
            ("argument", 2, 0),
            ("$fields.name", 2, 0),
            ("fields.name", 2, 0),
            (" name", 2, 0),
        ] {
            for (is_open, detail) in [(false, closed), (true, open)] {
                let arguments = holder(false, vec![field("argument", STRING)]);
                let sheet = write_schema(&schema(holder(is_open, vec![field("name", STRING)]), Some(arguments)));
                let expect = if detail == 0 { Expect::Number(0) } else { Expect::Detail(18, detail) };
                cases.push(KeyCase::new(semantics, reader, path, sheet).expecting(expect));
            }
        }
    }
    cases
}

/// Each combination of the refusals 1 to 4, so that every pair comes in its order, called for in several ways.
fn combinations() -> Vec<KeyCase> {
    let mut random = Random::new(3);
    let mut cases = Vec::new();
    for combination in 0..16_u32 {
        for (semantics, reader) in settings() {
            let wanted = [0, 1, 2, 3].map(|bit| combination >> bit & 1 == 1);
            let sheet = write_schema(&schema(holder(false, vec![field("name", STRING)]), None));
            let case = KeyCase::new(semantics, reader, "name", sheet).expecting(Expect::Number(0));
            cases.extend((0..12).map(|_| refusing(&mut random, case.clone(), wanted)));
        }
    }
    cases
}

/// Paths of 511 to 514 bytes, and results of each length around 28.
fn lengths() -> Vec<KeyCase> {
    let closed = write_schema(&schema(holder(false, Vec::new()), None));
    let long = |bytes: usize| {
        let expect = if bytes > 512 { Expect::Number(2) } else { Expect::Detail(18, 2) };
        KeyCase::new(2, 2, &"l".repeat(bytes), closed.clone()).expecting(expect)
    };
    let lent = |result_len: usize| {
        let expect = if result_len < 28 { Expect::Number(3) } else { Expect::Detail(18, 2) };
        KeyCase { result_len, ..KeyCase::new(2, 2, "l", closed.clone()) }.expecting(expect)
    };
    (511..=514).map(long).chain((0..=40).map(lent)).collect()
}
