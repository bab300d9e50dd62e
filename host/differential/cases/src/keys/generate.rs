//! Random cases of keys: each profile makes another kind of trouble.

use crate::case::Expect;
use crate::generate::build::{element, field, holder, schema, sorted, ARRAY, INTEGER, JSON, MAP, OBJECT, STRING, UNION};
use crate::generate::damage::damage;
use crate::generate::limits::{broken, long, NO_UTF8, SHAPES};
use crate::generate::names::STOCK;
use crate::generate::schemas::{a_field, name, schema as a_schema};
use crate::generate::scope::{damaged_reference, Scope};
use crate::keys::{KeyCase, KERNEL, READERS};
use crate::limits::{MAX_FIELD_NESTING, MAX_SCHEMA_ENTRIES, MAX_TEXT_BYTES, RESULT_BYTES};
use crate::random::Random;
use model::trees::{Field, Schema};
use model::{write_schema, MAX_KEY_BYTES};

/// A name, how often in a thousand cases it comes, and what makes it.
type Profile = (&'static str, usize, fn(&mut Random) -> KeyCase);

pub const PROFILES: [Profile; 7] = [
    ("right", 200, right),
    ("slips", 260, slips),
    ("planted", 300, planted),
    ("tokens", 100, tokens),
    ("damaged", 70, damaged),
    ("settings", 50, settings),
    ("limits", 20, limits),
];

/// A case of any profile, and the profile's name.
pub fn case(random: &mut Random) -> (&'static str, KeyCase) {
    let mut ticket = random.below(1_000);
    for (name, share, make) in PROFILES {
        if ticket < share {
            return (name, make(random));
        }
        ticket -= share;
    }
    unreachable!("the shares add up to a thousand")
}

/// Semantics and reader; kernel/1, under which the readers do not differ, in a fifth of the cases only.
fn setting(random: &mut Random) -> (u64, u64) {
    let semantics = if random.chance(20) { 1 } else { random.between(2, 4) as u64 };
    (semantics, random.pick(&READERS))
}

/// A path that the kernel reads under the schema, or some name where it names nothing.
pub fn right_path(random: &mut Random, schema: &Schema, service: bool) -> Option<String> {
    Scope { kind: 1, names: &STOCK, service, schema, binders: Vec::new(), slip: 0 }.key(random)
}

/// The path some edits away.
pub fn damaged_path(random: &mut Random, path: &str) -> String {
    let reference = damaged_reference(random, &format!("$fields.{path}"));
    reference.strip_prefix("$fields.").unwrap_or(&reference[1..]).to_owned()
}

fn some_schema(random: &mut Random) -> Schema {
    let fields = random.between(1, 5);
    a_schema(random, fields)
}

pub fn right(random: &mut Random) -> KeyCase {
    let (semantics, reader) = setting(random);
    let schema = some_schema(random);
    let path = right_path(random, &schema, semantics > 1);
    // A projection may still meet the length of a text.
    let expect = if path.is_some() && reader == KERNEL { Expect::Number(0) } else { Expect::Read };
    let path = path.unwrap_or_else(|| name(random).to_owned());
    KeyCase::new(semantics, reader, &path, write_schema(&schema)).expecting(expect)
}

pub fn slips(random: &mut Random) -> KeyCase {
    let (semantics, reader) = setting(random);
    let schema = some_schema(random);
    let path = right_path(random, &schema, semantics > 1).unwrap_or_default();
    let path = damaged_path(random, &path);
    KeyCase::new(semantics, reader, &path, write_schema(&schema)).expecting(Expect::Read)
}

const PIECES: [&str; 14] = [".", ".", ".", "a", "b", "c", "d", "é", "0", "1", "01", "count", "value", "content"];

fn tokens(random: &mut Random) -> KeyCase {
    let (semantics, reader) = setting(random);
    let schema = some_schema(random);
    let path = (0..random.between(0, 7)).fold(String::new(), |path, _| path + random.pick(&PIECES));
    KeyCase::new(semantics, reader, &path, write_schema(&schema)).expecting(Expect::Read)
}

pub fn damaged(random: &mut Random) -> KeyCase {
    let mut case = slips(random);
    for _ in 0..random.between(1, 2) {
        damage(random, &mut case.schema);
    }
    case.expecting(Expect::Anything)
}

/// What follows a field of some kind, and the details that come of it, 0 for none: under kernel/1, and under service for the kernel and for
/// a projection.
type Plant = (u8, &'static str, [u32; 3]);

pub const PLANTS: [Plant; 36] = [
    (STRING, "", [0, 0, 0]),
    (STRING, ".", [1, 1, 1]),
    (STRING, "..count", [1, 1, 1]),
    (STRING, ".x", [10, 10, 10]),
    (STRING, ".0", [10, 10, 10]),
    (STRING, ".Count", [10, 10, 10]),
    (STRING, ".counts", [10, 10, 10]),
    (STRING, ".count", [10, 0, 13]),
    (STRING, ".count.x", [10, 6, 13]),
    (STRING, ".count.", [10, 6, 13]),
    (STRING, ".count.count", [10, 6, 13]),
    (ARRAY, ".count", [10, 0, 0]),
    (ARRAY, ".count.x", [10, 6, 6]),
    (ARRAY, ".count.count", [10, 6, 6]),
    (ARRAY, ".x", [10, 4, 4]),
    (ARRAY, ".01", [10, 4, 4]),
    (ARRAY, ".18446744073709551616.any", [10, 0, 0]),
    (ARRAY, ".", [1, 1, 1]),
    (MAP, ".count", [10, 0, 0]),
    (MAP, ".count.count", [10, 6, 6]),
    (MAP, ".x", [10, 5, 5]),
    (MAP, ".0", [10, 5, 5]),
    (UNION, ".t", [10, 0, 0]),
    (UNION, ".t.x", [10, 7, 7]),
    (UNION, ".value.x.", [10, 0, 0]),
    (UNION, ".count", [10, 8, 8]),
    (UNION, ".content", [10, 8, 8]),
    (INTEGER, ".count", [10, 9, 9]),
    (INTEGER, ".count.x", [10, 9, 9]),
    (INTEGER, ".x", [10, 10, 10]),
    (ENUM, ".count", [10, 9, 9]),
    (REF, ".count", [10, 9, 9]),
    (OBJECT, ".zz", [3, 3, 3]),
    (OBJECT, ".count", [3, 3, 3]),
    (JSON, ".count.count", [0, 0, 0]),
    (JSON, ".x..y", [0, 0, 0]),
];

const ENUM: u8 = 5;
const REF: u8 = 9;

/// What is known of a planted path under that setting.
pub fn expected((_, _, details): &Plant, semantics: u64, reader: u64) -> Expect {
    match details[if semantics == 1 { 0 } else { reader as usize }] {
        0 => Expect::Number(0),
        detail => Expect::Detail(18, detail),
    }
}

/// One of the paths whose detail is known, below objects and elements.
fn planted(random: &mut Random) -> KeyCase {
    let (semantics, reader) = setting(random);
    if random.chance(8) {
        return planted_root(random, semantics, reader);
    }
    let plant = PLANTS[random.below(PLANTS.len())];
    let (kind, tail, _) = plant;
    let mut tail = tail.to_owned();
    let tag = (kind == UNION).then(|| "t".to_owned());
    let mut made = Field { tag, ..field(random.pick(&NAMES), kind) };
    for _ in 0..random.below(4) {
        let name = random.pick(&NAMES);
        if semantics > 1 && random.chance(40) {
            tail = format!(".{}{tail}", random.pick(&["0", "7", "10"]));
            made = Field { items: element(made), ..field(name, ARRAY) };
        } else {
            tail = format!(".{}{tail}", made.name);
            made = Field { open: random.chance(20), properties: beside(random, made), ..field(name, OBJECT) };
        }
    }
    let path = format!("{}{tail}", made.name);
    let record = holder(random.chance(20), beside(random, made));
    let sheet = write_schema(&schema(record, None));
    KeyCase::new(semantics, reader, &path, sheet).expecting(expected(&plant, semantics, reader))
}

const NAMES: [&str; 8] = ["a", "b", "count", "é", "0", "value", "$fields", "a' b"];

/// The field and others beside it, of which none takes its place.
fn beside(random: &mut Random, made: Field) -> Vec<Field> {
    let others = (0..random.below(3)).map(|_| a_field(random, 2));
    sorted(others.chain([made]).collect())
}

/// What the first segment alone decides.
fn planted_root(random: &mut Random, semantics: u64, reader: u64) -> KeyCase {
    let fields = (0..random.below(3)).map(|_| a_field(random, 2)).collect();
    let open = random.chance(50);
    let (path, detail) = random.pick(&[("", 1), (".", 1), (".a", 1), ("zz", 2), ("zz.", 2), ("zz.count", 2), ("$fields.zz", 2)]);
    let expect = if open && detail == 2 { Expect::Number(0) } else { Expect::Detail(18, detail) };
    KeyCase::new(semantics, reader, path, write_schema(&schema(holder(open, fields), None))).expecting(expect)
}

/// A right case with some of the refusals 1 to 4 called for: the first of them answers.
pub fn settings(random: &mut Random) -> KeyCase {
    let case = right(random);
    let wanted = [(); 4].map(|()| random.chance(35));
    refusing(random, case, wanted)
}

/// The case with each refusal called for that is wanted.
pub fn refusing(random: &mut Random, mut case: KeyCase, wanted: [bool; 4]) -> KeyCase {
    for (refusal, _) in (1..).zip(wanted).filter(|(_, wanted)| *wanted) {
        refuse(random, &mut case, refusal);
    }
    match wanted.iter().position(|wanted| *wanted) {
        Some(first) => case.expecting(Expect::Number(first as u32 + 1)),
        None => case,
    }
}

/// Numbers of readers and semantics that there are not, some past 32 bits.
const NO_READERS: [u64; 7] = [0, 3, 4, 256 + 1, (1 << 32) + 1, (1 << 32) + 2, u64::MAX];
const NO_SEMANTICS: [u64; 6] = [0, 5, 6, 256 + 2, (1 << 32) + 2, u64::MAX];

/// Changes the case so that the refusal applies.
fn refuse(random: &mut Random, case: &mut KeyCase, refusal: u32) {
    match refusal {
        1 if random.chance(50) => case.reader = random.pick(&NO_READERS),
        1 => case.semantics = random.pick(&NO_SEMANTICS),
        2 if random.chance(50) => case.path = long(random, MAX_KEY_BYTES + 1).into_bytes(),
        2 => case.path.extend_from_slice(random.pick(&NO_UTF8)),
        3 => case.result_len = random.below(RESULT_BYTES),
        _ => case.schema = broken(random, &case.schema),
    }
}

/// One limit, met, missed by one or passed by one.
fn limits(random: &mut Random) -> KeyCase {
    let (semantics, reader) = setting(random);
    let step = random.below(3);
    let at_limit = |path: String, schema: &Schema, passes: bool, refusal: u32| {
        let expect = if passes { Expect::Number(refusal) } else { Expect::Read };
        KeyCase::new(semantics, reader, &path, write_schema(schema)).expecting(expect)
    };
    match random.below(4) {
        0 => {
            let bytes = MAX_KEY_BYTES - 1 + step;
            let (path, made) = long_path(random, bytes);
            at_limit(path, &schema(holder(false, vec![made]), None), bytes > MAX_KEY_BYTES, 2)
        }
        1 => {
            let bytes = MAX_TEXT_BYTES - 1 + step;
            let made = field(&long(random, bytes), STRING);
            at_limit(random.pick(&["a", ""]).to_owned(), &schema(holder(true, vec![made]), None), bytes > MAX_TEXT_BYTES, 4)
        }
        2 => {
            let entries = MAX_SCHEMA_ENTRIES - 1 + step;
            at_limit("a.b".to_owned(), &random.pick(&SHAPES)(entries), entries > MAX_SCHEMA_ENTRIES, 4)
        }
        _ => {
            let nesting = MAX_FIELD_NESTING - 1 + step;
            let made = (1..nesting).fold(field("o", STRING), |inner, _| Field { properties: vec![inner], ..field("o", OBJECT) });
            let path = vec!["o"; nesting].join(".") + random.pick(&["", ".count", ".x"]);
            at_limit(path, &schema(holder(false, vec![made]), None), nesting > MAX_FIELD_NESTING, 4)
        }
    }
}

/// A path of so many bytes, and the field that it leads into.
fn long_path(random: &mut Random, bytes: usize) -> (String, Field) {
    match random.below(3) {
        0 => {
            let (outer, inner) = (long(random, bytes / 2), long(random, bytes - bytes / 2 - 1));
            let made = Field { properties: vec![field(&inner, INTEGER)], ..field(&outer, OBJECT) };
            (format!("{outer}.{inner}"), made)
        }
        1 => {
            let text = long(random, bytes - ".count".len());
            (format!("{text}.count"), field(&text, STRING))
        }
        _ => {
            let rest = ".x".repeat(bytes / 2 - 1);
            let name = "j".repeat(bytes - rest.len());
            (format!("{name}{rest}"), field(&name, JSON))
        }
    }
}
