//! Rules whose openings are known: every holder alone and with others, binders, what no opening cures, lists and results of every length, every combination of refusals.

use crate::case::Case;
use crate::generate::build::{array, exists, rule, text};
use crate::openings::generate::{of_levels, of_objects, refuse};
use crate::openings::{Expect, OpeningsCase};
use crate::random::Random;
use model::table::Table;
use model::trees::Sheet;
use model::{write_rule, OPENINGS_BYTES, OPENING_LIST_BYTES};

/// Closed but for the strings, whose marks count for nothing, and for `w`: `l`, an array of objects with a map `m` of objects and a string `s`; `o`, an object with an object `p`
/// in it; `s`, a string; `w`, an object. The arguments have an object `a`.
const SCHEMA: &str = "H,0,4,0,1\n\
    F,6,0,1,0,1,-,l\n\
    F,7,0,0,2,0,-,\n\
    F,10,0,1,0,1,-,m\n\
    F,7,0,0,0,0,-,\n\
    F,1,1,0,0,1,-,s\n\
    F,7,0,0,1,1,-,o\n\
    F,7,0,0,0,1,-,p\n\
    F,1,1,0,0,1,-,s\n\
    F,7,1,0,0,1,-,w\n\
    F,7,0,0,0,1,-,a\n";

/// The entries of `SCHEMA`.
const ARGUMENTS: u32 = 0;
const RECORD: u32 = 1;
const ELEMENT: u32 = 3;
const INNER_ELEMENT: u32 = 5;
const OBJECT: u32 = 7;
const NESTED: u32 = 8;
const ARGUMENT: u32 = 11;

/// References that are read, each with the mark that it needs.
const READ: [(&str, Option<u32>); 14] = [
    ("$id", None),
    ("$fields.s", None),
    ("$fields.w.q.r", None),
    ("$args.a", None),
    ("$args.q", Some(ARGUMENTS)),
    ("$args.q..", Some(ARGUMENTS)),
    ("$fields.q", Some(RECORD)),
    ("$old_fields.q.count", Some(RECORD)),
    ("$fields.l.0.q", Some(ELEMENT)),
    ("$fields.l.10.count", Some(ELEMENT)),
    ("$fields.o.q", Some(OBJECT)),
    ("$fields.o.p.q", Some(NESTED)),
    ("$old_fields.o.p.count.", Some(NESTED)),
    ("$args.a.q", Some(ARGUMENT)),
];

/// Conditions that no opening makes right. Inside a binder `b` of the array's elements, one would cure the last two.
const INCURABLE: [&str; 12] = [
    "C,5,0,\nV,5,5,$nope\n",
    "C,5,0,\nV,5,8,$fields.\n",
    "C,5,0,\nV,5,11,$fields.s.q\n",
    "C,5,0,\nV,5,11,$fields.l.q\n",
    "C,5,0,\nV,5,17,$fields.l.count.q\n",
    "C,5,0,\nV,5,6,$state\n",
    "C,2,0,\n",
    "C,16,0,\nV,1,0,\nV,5,1,a\n",
    "C,6,0,\nV,5,10,2023-02-29\nV,5,12,$args.a.when\n",
    "C,20,1,c\nV,5,9,$fields.o\nC,1,1,\n",
    "C,20,1,c\nV,5,4,xb.q\nC,1,1,\n",
    "C,5,0,\nV,5,4,$b.q\n",
];

/// Quantifiers, and the marks that they need.
fn quantifiers() -> Vec<(String, Vec<u32>)> {
    let over = |bind: &str, over: &str, body: &str| format!("C,20,{},{bind}\nV,5,{},{over}\n{body}", bind.len(), over.len());
    let read = |reference: &str| format!("C,5,0,\nV,5,{},{reference}\n", reference.len());
    let both = |one: &str, other: &str| format!("C,2,2,\n{one}{other}");
    let inner = |path: &str, body: &str| over("b", "$fields.l", &over("c", path, body));
    vec![
        (over("b", "$fields.l", &read("$b.s")), vec![]),
        (over("b", "$fields.l", &read("$b.q")), vec![ELEMENT]),
        (over("b", "$fields.q", &read("$b.q..r")), vec![RECORD]),
        (over("b", "$fields.o.q", &read("$b.")), vec![OBJECT]),
        (over("b", "$fields.w.q", &read("$b.q")), vec![]),
        (over("b", "$args.q", &read("$b.q")), vec![ARGUMENTS]),
        (inner("xb.m", &read("$c.q")), vec![INNER_ELEMENT]),
        (inner("$b.m", &both(&read("$b.q"), &read("$c.q"))), vec![ELEMENT, INNER_ELEMENT]),
        (inner("xb.q", &read("$c.anything.")), vec![ELEMENT]),
        (inner("bb.", &read("$c.")), vec![ELEMENT]),
        (inner("$b.q.0", &read("$c")), vec![ELEMENT]),
        (inner("xb", &read("$c.q")), vec![]),
        (over("fields", "$fields.l", &read("$fields.q")), vec![ELEMENT]),
        (both(&over("b", "$fields.q", &read("$b.q")), &over("b", "$fields.l", &read("$b.q"))), vec![RECORD, ELEMENT]),
    ]
}

fn case(kind: u64, semantics: u64, schema: &str, rule: &[u8]) -> OpeningsCase {
    OpeningsCase::of(&Case::new(kind, semantics, b"", schema.as_bytes().to_vec(), rule.to_vec()))
}

/// A rule of one condition, under service/1 as a precondition.
fn of_condition(condition: &str) -> OpeningsCase {
    case(2, 2, SCHEMA, format!("R,-,-,\n{condition}").as_bytes())
}

/// All of the known cases but the largest.
pub fn edges() -> Vec<OpeningsCase> {
    let mut found = [references(), pairs(), incurable(), lengths(), combinations()].concat();
    found.extend(quantifiers().into_iter().map(|(condition, set)| of_condition(&condition).expecting(Expect::Set(set))));
    found.extend([2, 64].map(|levels| of_levels(levels, &(1..=levels + 1).rev().collect::<Vec<_>>())));
    found.extend([0, 1, 40].map(|count| of_objects(count, &(0..count + 2).rev().collect::<Vec<_>>())));
    found
}

/// A sheet that reads these, as a rule and as a template.
fn reading(references: &[&str]) -> [Vec<u8>; 2] {
    let values = array(references.iter().map(|reference| text(reference)).collect());
    [rule(exists(values.clone())), Sheet::Template(values)].map(|sheet| write_rule(&sheet))
}

/// Each reference alone, under each kind that may read all of them and under a service semantics.
fn references() -> Vec<OpeningsCase> {
    let mut found = Vec::new();
    for (reference, mark) in READ {
        for (kind, semantics) in [(2, 2), (4, 3)] {
            let set = Expect::Set(mark.into_iter().collect());
            found.extend(reading(&[reference]).map(|sheet| case(kind, semantics, SCHEMA, &sheet).expecting(set.clone())));
        }
        // Not under kernel/1, which does not look into arrays; not where there are no arguments, or they may not be read.
        let is_argument = reference.starts_with("$args.");
        let of_kernel = if reference.contains(".l.") { Expect::None } else { Expect::Set(mark.into_iter().collect()) };
        let of_invariant = if is_argument || reference.contains("old") { Expect::None } else { of_kernel.clone() };
        let [sheet, template] = reading(&[reference]);
        found.push(case(2, 1, SCHEMA, &sheet).expecting(of_kernel));
        found.push(case(1, 1, SCHEMA, &template).expecting(of_invariant));
        if is_argument {
            found.push(case(2, 2, "H,0,0,-,0\n", &sheet).expecting(Expect::None));
        }
    }
    found
}

/// Every two references, in both orders.
fn pairs() -> Vec<OpeningsCase> {
    let mut found = Vec::new();
    for (one, first) in READ {
        for (other, second) in READ {
            let mut set: Vec<u32> = first.into_iter().chain(second).collect();
            set.sort();
            set.dedup();
            let [sheet, _] = reading(&[one, other]);
            found.push(case(2, 2, SCHEMA, &sheet).expecting(Expect::Set(set)));
        }
    }
    found
}

/// What no opening cures: alone, before and after what one does, and in a body.
fn incurable() -> Vec<OpeningsCase> {
    let cured = "C,5,0,\nV,5,9,$fields.q\n";
    let around = |condition: &str| {
        [
            condition.to_owned(),
            format!("C,2,2,\n{cured}{condition}"),
            format!("C,3,2,\n{condition}{cured}"),
            format!("C,4,0,\nC,20,1,d\nV,5,9,$fields.q\n{condition}"),
        ]
    };
    let all = INCURABLE.into_iter().flat_map(around);
    all.map(|condition| of_condition(&condition).expecting(Expect::None)).collect()
}

/// Lists and results about as long as they must be, for a set, for none and for an accepted rule.
fn lengths() -> Vec<OpeningsCase> {
    let cases = [
        of_condition("C,5,0,\nV,5,9,$fields.q\n").expecting(Expect::Set(vec![RECORD])),
        of_condition(INCURABLE[0]).expecting(Expect::None),
        of_condition("C,1,1,\n").expecting(Expect::Set(Vec::new())),
    ];
    let with = |case: &OpeningsCase, list_len: usize, result_len: usize| {
        let refused = match () {
            () if result_len < OPENINGS_BYTES => Some(3),
            () if list_len < OPENING_LIST_BYTES => Some(36),
            () => None,
        };
        let expect = refused.map_or(case.expect.clone(), Expect::Refused);
        OpeningsCase { list_len, result_len, expect, ..case.clone() }
    };
    let lists = [0, 1, 4, 4_096, 4_099, 4_100, 4_101, 4_104];
    let results = [0, 8, 11, 12, 13, 16];
    let lengths = lists.into_iter().flat_map(|list| results.map(|result| (list, result)));
    lengths.flat_map(|(list, result)| cases.each_ref().map(|case| with(case, list, result))).collect()
}

/// Every combination of the refusals 1, 3, 36, 37, 38, 4 and 5.
fn combinations() -> Vec<OpeningsCase> {
    let order = [5, 4, 38, 37, 36, 3, 1];
    let combined = |number: u64| {
        let mut random = Random::new(number);
        let mut case = of_condition("C,5,0,\nV,5,9,$fields.q\n").expecting(Expect::Set(vec![RECORD]));
        case.table = Table::stock().write();
        for (at, refusal) in order.into_iter().enumerate() {
            if number >> at & 1 == 1 {
                refuse(&mut random, &mut case, refusal);
                case.expect = Expect::Refused(refusal);
            }
        }
        case
    };
    (0..128).map(combined).collect()
}

/// As many marks as a schema can have, all of them to be opened, or one.
pub fn large() -> Vec<OpeningsCase> {
    let most = 1_023;
    let falling: Vec<usize> = (0..most + 2).rev().collect();
    vec![of_objects(most, &falling), of_objects(most, &[most + 1]), of_objects(most - 1, &falling[1..])]
}
