//! Pairs whose answers are known: each sentence of docs/FORMAT.md, "Is it a widening?", each reason at each holder, and each before each other.

use crate::generate::build::{element, field, holder, schema, ARRAY, JSON, OBJECT, STRING, UNION};
use crate::limits::RESULT_BYTES;
use crate::widens::{Expect, WidensCase};
use model::trees::{Field, Holder, Schema};
use model::write_schema;

/// All known edges.
pub fn edges() -> Vec<WidensCase> {
    [places(), heads(), orders(), refusals()].concat()
}

fn pair(first: &Schema, second: &Schema, expected: [u32; 5]) -> WidensCase {
    WidensCase::new(write_schema(first), write_schema(second)).expecting(Expect::Numbers(expected))
}

/// A field with everything that one can have.
fn full() -> Field {
    let below = Field { tag: Some("t".to_owned()), ..field("p", UNION) };
    Field { open: true, items: element(field("", STRING)), properties: vec![below.clone(), field("q", STRING)], ..field("f", ARRAY) }
}

/// One change of a field: the field after it, and the answer's last four numbers, given the field's entry.
type Changed = (Field, fn(u32) -> [u32; 4]);

fn changes() -> Vec<Changed> {
    let base = full();
    let closed = Field { open: false, ..base.clone() };
    let other_kind = Field { kind: JSON, ..base.clone() };
    let no_items = Field { items: None, ..base.clone() };
    let tagged = |tag: &str| Field { tag: Some(tag.to_owned()), ..base.clone() };
    let with = |properties: Vec<Field>| Field { properties, ..base.clone() };
    let [p, q] = [0, 1].map(|at| base.properties[at].clone());
    let opened = Field { open: true, ..q.clone() };
    let grown = Field { properties: vec![field("", JSON)], ..q.clone() };
    let element_kind = Field { items: element(field("", JSON)), ..base.clone() };
    let all_at_once = Field { kind: JSON, open: false, items: None, tag: Some(String::new()), properties: Vec::new(), ..base.clone() };
    let no_kind = Field { open: false, items: None, tag: Some(String::new()), properties: Vec::new(), ..base.clone() };
    let no_mark = Field { items: None, tag: Some(String::new()), properties: Vec::new(), ..base.clone() };
    let no_element = Field { items: element(field("", JSON)), tag: Some(String::new()), properties: Vec::new(), ..base.clone() };
    let below_it = Field { items: element(field("", JSON)), properties: Vec::new(), ..base.clone() };
    vec![
        (base.clone(), |_| [1, 0, 0, 0]),
        (closed, |entry| [3, 5, entry, entry]),
        (other_kind, |entry| [3, 2, entry, entry]),
        (no_items, |entry| [3, 3, entry, entry]),
        (tagged(""), |entry| [3, 4, entry, entry]),
        (tagged("t"), |entry| [3, 4, entry, entry]),
        (with(vec![p.clone()]), |entry| [3, 1, entry + 3, 0]),
        (with(vec![q.clone()]), |entry| [3, 1, entry + 2, 0]),
        (with(vec![]), |entry| [3, 1, entry + 2, 0]),
        (with(vec![p.clone(), opened]), |_| [1, 0, 0, 0]),
        (with(vec![p.clone(), grown]), |_| [2, 0, 0, 0]),
        (with(vec![field("o", JSON), p.clone(), q.clone()]), |entry| [3, 6, 0, entry + 2]),
        (with(vec![p.clone(), field("pp", JSON), q.clone()]), |entry| [3, 6, 0, entry + 3]),
        (with(vec![p.clone(), q.clone(), field("r", JSON)]), |entry| [3, 6, 0, entry + 4]),
        (with(vec![Field { tag: None, ..p.clone() }, q.clone()]), |entry| [3, 4, entry + 2, entry + 2]),
        (with(vec![Field { tag: Some(String::new()), ..p }, q]), |entry| [3, 4, entry + 2, entry + 2]),
        (element_kind, |entry| [3, 2, entry + 1, entry + 1]),
        (all_at_once, |entry| [3, 2, entry, entry]),
        (no_kind, |entry| [3, 5, entry, entry]),
        (no_mark, |entry| [3, 3, entry, entry]),
        (no_element, |entry| [3, 4, entry, entry]),
        (below_it, |entry| [3, 2, entry + 1, entry + 1]),
    ]
}

/// The schema around the record or the arguments, these around the field, and the field's entry.
type Way<'a> = (fn(Holder) -> Schema, &'a dyn Fn(&Field) -> Holder, u32);

/// Each change in the record, in the arguments, in an object, and in an element of an element, after a field that has grown.
fn places() -> Vec<WidensCase> {
    let mut cases = Vec::new();
    for (changed, expected) in changes() {
        let at_top = |made: &Field| holder(false, vec![made.clone()]);
        let in_object = |made: &Field| holder(false, vec![Field { properties: vec![made.clone()], ..field("o", OBJECT) }]);
        let in_elements = |made: &Field| {
            let inner = Field { items: element(Field { properties: vec![made.clone()], ..field("", OBJECT) }), ..field("", ARRAY) };
            holder(false, vec![Field { items: element(inner), ..field("l", ARRAY) }])
        };
        let ways: [Way; 4] = [
            (|record| schema(record, None), &at_top, 2),
            (|arguments| schema(holder(true, Vec::new()), Some(arguments)), &at_top, 2),
            (|record| schema(record, None), &in_object, 3),
            (|record| schema(record, Some(holder(true, Vec::new()))), &in_elements, 5),
        ];
        for (whole, around, entry) in ways {
            let [answer, reason, one, two] = expected(entry);
            let (first, second) = (whole(around(&full())), whole(around(&changed)));
            cases.push(pair(&first, &second, [0, answer, reason, one, two]));
        }
    }
    cases
}

/// Every head against every other, without fields.
fn heads() -> Vec<WidensCase> {
    let ways = [false, true].into_iter().flat_map(|open| [None, Some(false), Some(true)].map(|arguments| (open, arguments)));
    let ways: Vec<(bool, Option<bool>)> = ways.collect();
    let made = |(open, arguments): (bool, Option<bool>)| schema(holder(open, Vec::new()), arguments.map(|open| holder(open, Vec::new())));
    let mut cases = Vec::new();
    for one in &ways {
        for two in &ways {
            let expected = match (one, two) {
                ((true, _), (false, _)) => [3, 5, 1, 1],
                ((_, Some(_)), (_, None)) => [3, 7, 1, 0],
                ((_, Some(true)), (_, Some(false))) => [3, 5, 1, 1],
                ((_, None), (_, Some(_))) => [2, 0, 0, 0],
                _ => [1, 0, 0, 0],
            };
            let [answer, reason, first, second] = expected;
            cases.push(pair(&made(*one), &made(*two), [0, answer, reason, first, second]));
        }
    }
    cases
}

/// A breach in the head, in each of three fields of the record, and in the arguments, in every combination: the first counts.
fn orders() -> Vec<WidensCase> {
    let named = ["a", "b", "c"];
    let whole = |broken: [bool; 5]| {
        let kind = |broken: bool| if broken { JSON } else { STRING };
        let fields = named.iter().zip(&broken[1..4]).map(|(name, broken)| field(name, kind(*broken))).collect();
        let argument = field("", kind(broken[4]));
        schema(holder(!broken[0], fields), Some(holder(false, vec![argument])))
    };
    let first = whole([false; 5]);
    let combinations = (0..32).map(|bits: u32| [0, 1, 2, 3, 4].map(|at| bits & (1 << at) != 0));
    let cases = combinations.map(|broken| {
        let expected = match broken.iter().position(|is| *is) {
            None => [0, 1, 0, 0, 0],
            Some(0) => [0, 3, 5, 1, 1],
            Some(at) => [0, 3, 2, at as u32 + 1, at as u32 + 1],
        };
        pair(&first, &whole(broken), expected)
    });
    cases.collect()
}

/// Which sheet is refused, and what a short result does.
fn refusals() -> Vec<WidensCase> {
    let good = write_schema(&schema(holder(false, vec![full()]), None));
    let mut cases = Vec::new();
    for bad in [&b""[..], b"H,0,0,-,0", b"T\nV,1,0,\n", &good[..good.len() - 1]] {
        let case = |first: &[u8], second: &[u8], which| {
            WidensCase::new(first.to_vec(), second.to_vec()).expecting(Expect::Numbers([4, which, 0, 0, 0]))
        };
        cases.extend([case(bad, &good, 1), case(&good, bad, 2), case(bad, bad, 1)]);
    }
    let short: Vec<WidensCase> = cases.iter().cloned().chain([WidensCase::new(good.clone(), good)]).collect();
    for result_len in [0, 1, RESULT_BYTES - 1] {
        cases.extend(short.iter().map(|case| WidensCase { result_len, expect: Expect::Numbers([3, 0, 0, 0, 0]), ..case.clone() }));
    }
    cases
}
