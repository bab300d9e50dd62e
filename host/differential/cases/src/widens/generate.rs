//! Random pairs of schemas: widenings of every kind, slips of every kind, one change apart or many, deep, wide, at the limits and past them.

use crate::generate::build::{element, field, holder, schema, sorted, ARRAY, JSON, MAP, OBJECT, STRING, UNION};
use crate::generate::limits::{broken, long, SHAPES};
use crate::generate::schemas::{a_field, name, schema as a_schema};
use crate::generate::widen::{unwidened, widened, Level};
use crate::limits::{MAX_FIELD_NESTING, MAX_SCHEMA_ENTRIES, MAX_SHEET_BYTES, MAX_TEXT_BYTES, RESULT_BYTES};
use crate::random::Random;
use crate::widens::{Expect, WidensCase};
use model::trees::{Field, Schema};
use model::{decode_schema, write_schema};

/// A name, how often in a thousand cases it comes, and what makes it.
type Profile = (&'static str, usize, fn(&mut Random) -> WidensCase);

pub const PROFILES: [Profile; 11] = [
    ("same", 20, same),
    ("widened", 200, widening),
    ("one apart", 350, one_apart),
    ("several", 220, several),
    ("unrelated", 60, unrelated),
    ("names", 50, names),
    ("deep", 30, deep),
    ("wide", 15, wide),
    ("limits", 10, limits),
    ("damaged", 30, damaged),
    ("short", 15, short),
];

/// A pair of any profile, and the profile's name.
pub fn case(random: &mut Random) -> (&'static str, WidensCase) {
    let mut ticket = random.below(1_000);
    for (name, share, make) in PROFILES {
        if ticket < share {
            return (name, make(random));
        }
        ticket -= share;
    }
    unreachable!("the shares add up to a thousand")
}

fn pair(first: &Schema, second: &Schema) -> WidensCase {
    WidensCase::new(write_schema(first), write_schema(second))
}

fn some_schema(random: &mut Random) -> Schema {
    let fields = random.between(1, 6);
    numbered(&a_schema(random, fields))
}

/// The schema with its entry numbers.
fn numbered(schema: &Schema) -> Schema {
    decode_schema(&write_schema(schema)).expect("a small schema can be read")
}

fn same(random: &mut Random) -> WidensCase {
    let schema = some_schema(random);
    pair(&schema, &schema).expecting(Expect::Numbers([0, 1, 0, 0, 0]))
}

fn widening(random: &mut Random) -> WidensCase {
    let made = some_schema(random);
    let level = if random.chance(40) { Level::Marks } else { Level::Any };
    let (first, second) = if random.chance(50) {
        (unwidened(random, &made, level), made)
    } else {
        let wide = widened(random, &made, level);
        (made, wide)
    };
    let expect = if level == Level::Marks { Expect::Numbers([0, 1, 0, 0, 0]) } else { Expect::Widening };
    pair(&first, &second).expecting(expect)
}

/// One change somewhere in the first schema, which determines the answer.
fn one_apart(random: &mut Random) -> WidensCase {
    loop {
        let first = some_schema(random);
        let mut second = first.clone();
        let change = random.pick(&CHANGES);
        if let Some(expect) = change(random, &mut second) {
            return pair(&first, &second).expecting(expect);
        }
    }
}

/// Some changes, of which the first that is a breach counts.
fn several(random: &mut Random) -> WidensCase {
    let first = some_schema(random);
    let mut second = first.clone();
    for _ in 0..random.between(2, 8) {
        let change = random.pick(&CHANGES);
        let _ = change(random, &mut second);
    }
    pair(&first, &second)
}

/// Two schemas of the same few names.
fn unrelated(random: &mut Random) -> WidensCase {
    let (first, second) = (some_schema(random), some_schema(random));
    pair(&first, &second)
}

type Change = fn(&mut Random, &mut Schema) -> Option<Expect>;

/// Every kind of change, and what it alone makes of a pair. None where the schema has nothing to change so; it may then have changed otherwise.
pub const CHANGES: [Change; 13] =
    [open, close, add, add, remove, kind, items, items, tag, arguments_come, arguments_go, rename, element_to_property];

/// How often a place for a change is looked for.
const TRIES: usize = 8;

/// A holder's entry, 1 for record and arguments, its mark and its fields.
type Held<'s> = (u32, &'s mut bool, &'s mut Vec<Field>);

/// Makes a change at a random holder, and tries some more where it cannot be made there.
fn at_a_holder<T>(random: &mut Random, schema: &mut Schema, mut change: impl FnMut(&mut Random, Held) -> Option<T>) -> Option<T> {
    (0..TRIES).find_map(|_| {
        let count = 1 + usize::from(schema.arguments.is_some()) + all_fields(schema);
        match (random.below(count), &mut schema.arguments) {
            (0, _) => change(random, (1, &mut schema.record.open, &mut schema.record.fields)),
            (1, Some(arguments)) => change(random, (1, &mut arguments.open, &mut arguments.fields)),
            _ => at_a_field(random, schema, |random, field| change(random, (field.entry, &mut field.open, &mut field.properties))),
        }
    })
}

/// Makes a change at a random field or element.
fn at_a_field<T>(random: &mut Random, schema: &mut Schema, change: impl FnOnce(&mut Random, &mut Field) -> Option<T>) -> Option<T> {
    let count = all_fields(schema);
    let mut left = if count == 0 { return None } else { random.below(count) };
    let arguments = schema.arguments.iter_mut().flat_map(|arguments| &mut arguments.fields);
    let found = schema.record.fields.iter_mut().chain(arguments).find_map(|field| nth(field, &mut left));
    change(random, found?)
}

fn all_fields(schema: &Schema) -> usize {
    let arguments = schema.arguments.iter().flat_map(|arguments| &arguments.fields);
    schema.record.fields.iter().chain(arguments).map(size).sum()
}

/// The fields from this one on, all below it.
fn size(field: &Field) -> usize {
    1 + field.items.iter().map(|items| size(items)).sum::<usize>() + field.properties.iter().map(size).sum::<usize>()
}

/// The field that so many others come before.
fn nth<'s>(field: &'s mut Field, left: &mut usize) -> Option<&'s mut Field> {
    if *left == 0 {
        return Some(field);
    }
    *left -= 1;
    let items = field.items.as_deref_mut().into_iter();
    items.chain(&mut field.properties).find_map(|below| nth(below, left))
}

fn breach(reason: u32, first: u32, second: u32) -> Expect {
    Expect::Numbers([0, 3, reason, first, second])
}

fn open(random: &mut Random, schema: &mut Schema) -> Option<Expect> {
    at_a_holder(random, schema, |_, (_, open, _)| (!std::mem::replace(open, true)).then_some(Expect::Numbers([0, 1, 0, 0, 0])))
}

fn close(random: &mut Random, schema: &mut Schema) -> Option<Expect> {
    at_a_holder(random, schema, |_, (entry, open, _)| std::mem::replace(open, false).then_some(breach(5, entry, entry)))
}

/// A field more, under a holder that is closed or one that is open.
fn add(random: &mut Random, schema: &mut Schema) -> Option<Expect> {
    at_a_holder(random, schema, |random, (_, open, fields)| {
        let added = a_field(random, 3);
        if fields.iter().any(|field| field.name == added.name) {
            return None;
        }
        fields.push(added);
        *fields = sorted(std::mem::take(fields));
        Some(if *open { Expect::Reason(6) } else { Expect::Numbers([0, 2, 0, 0, 0]) })
    })
}

fn remove(random: &mut Random, schema: &mut Schema) -> Option<Expect> {
    at_a_holder(random, schema, |random, (_, _, fields)| {
        let at = if fields.is_empty() { return None } else { random.below(fields.len()) };
        Some(breach(1, fields.remove(at).entry, 0))
    })
}

fn kind(random: &mut Random, schema: &mut Schema) -> Option<Expect> {
    at_a_field(random, schema, |random, field| {
        let other = if random.chance(30) { JSON } else { random.between(1, 12) as u8 };
        (std::mem::replace(&mut field.kind, other) != other).then_some(breach(2, field.entry, field.entry))
    })
}

/// An element comes or goes.
fn items(random: &mut Random, schema: &mut Schema) -> Option<Expect> {
    at_a_field(random, schema, |random, field| {
        field.items = match field.items {
            Some(_) => None,
            None => element(a_field(random, 3)),
        };
        Some(breach(3, field.entry, field.entry))
    })
}

fn tag(random: &mut Random, schema: &mut Schema) -> Option<Expect> {
    at_a_field(random, schema, |random, field| {
        let other = random.pick(&[None, Some(""), Some("t"), Some("tt"), Some("u"), Some("é")]).map(str::to_owned);
        let before = std::mem::replace(&mut field.tag, other);
        (before != field.tag).then_some(breach(4, field.entry, field.entry))
    })
}

fn arguments_come(random: &mut Random, schema: &mut Schema) -> Option<Expect> {
    let is_new = schema.arguments.is_none();
    schema.arguments.get_or_insert_with(|| a_schema(random, 2).record);
    is_new.then_some(Expect::Numbers([0, 2, 0, 0, 0]))
}

fn arguments_go(_: &mut Random, schema: &mut Schema) -> Option<Expect> {
    schema.arguments.take().map(|_| breach(7, 1, 0))
}

/// A field gets another name; under an open holder whichever name is smaller determines the breach.
fn rename(random: &mut Random, schema: &mut Schema) -> Option<Expect> {
    at_a_holder(random, schema, |random, (_, open, fields)| {
        let at = if fields.is_empty() { return None } else { random.below(fields.len()) };
        let other = name(random);
        if fields.iter().any(|field| field.name == other) {
            return None;
        }
        let before = std::mem::replace(&mut fields[at].name, other.to_owned());
        let entry = fields[at].entry;
        *fields = sorted(std::mem::take(fields));
        Some(if *open && *other < *before { Expect::Reason(6) } else { breach(1, entry, 0) })
    })
}

/// What was an element is a property without a name.
fn element_to_property(random: &mut Random, schema: &mut Schema) -> Option<Expect> {
    at_a_field(random, schema, |_, field| {
        let has_it = field.properties.iter().any(|property| property.name.is_empty());
        let items = if has_it { None } else { field.items.take() };
        field.properties.insert(0, *items?);
        Some(breach(3, field.entry, field.entry))
    })
}

/// Siblings whose names begin alike, some of them in one of the two alone.
fn names(random: &mut Random) -> WidensCase {
    let stem = random.pick(&["", "a", "é", "日本", "n\n"]).to_owned();
    let base = if random.chance(20) { long(random, 500) } else { stem };
    let ends = ["", "a", "b", "aa", "ab", "\0", "\u{7f}", "é", "É", "\u{10ffff}", "z", "-", "\n", ","];
    let holders = [0, 1].map(|_| {
        let fields = ends.iter().filter(|_| random.chance(60)).map(|end| format!("{base}{end}")).collect::<Vec<_>>();
        fields.iter().map(|name| field(name, STRING)).collect::<Vec<_>>()
    });
    let [first, mut second] = holders;
    if random.chance(50) {
        second.extend(first.iter().cloned());
    }
    let (open, in_object) = (random.chance(50), random.chance(50));
    let [first, second] = [first, second].map(|fields| {
        let fields = sorted(fields);
        if in_object {
            schema(holder(false, vec![Field { open, properties: fields, ..field("o", OBJECT) }]), None)
        } else {
            schema(holder(open, fields), None)
        }
    });
    pair(&first, &second)
}

/// Fields that nest as deep as they may, or deeper, with a change at the bottom or on the way.
fn deep(random: &mut Random) -> WidensCase {
    let depth = random.pick(&[2, 20, 62, 63, 64, 64, 65]);
    let leaf = Field { open: random.chance(30), ..field("leaf", UNION) };
    let nested = (1..depth).fold(leaf, |below, _| match random.below(3) {
        0 => Field { items: element(below), ..field("l", ARRAY) },
        1 => Field { items: element(below), open: random.chance(20), ..field("m", MAP) },
        _ => Field { properties: vec![below], open: random.chance(20), ..field("o", OBJECT) },
    });
    let made = schema(holder(false, vec![nested]), None);
    if depth > MAX_FIELD_NESTING {
        let good = some_schema(random);
        return if random.chance(50) {
            pair(&made, &good).expecting(Expect::Numbers([4, 1, 0, 0, 0]))
        } else {
            pair(&good, &made).expecting(Expect::Numbers([4, 2, 0, 0, 0]))
        };
    }
    let first = numbered(&made);
    let mut second = first.clone();
    for _ in 0..random.between(0, 3) {
        let change = random.pick(&[open, close, remove, kind, tag, items]);
        let _ = change(random, &mut second);
    }
    pair(&first, &second)
}

/// Hundreds of fields, with some changes.
fn wide(random: &mut Random) -> WidensCase {
    let shape = random.pick(&SHAPES);
    let entries = random.between(200, 900);
    let first = numbered(&shape(entries));
    let mut second = first.clone();
    for _ in 0..random.between(0, 3) {
        let change = random.pick(&CHANGES);
        let _ = change(random, &mut second);
    }
    if random.chance(50) {
        pair(&first, &second)
    } else {
        pair(&second, &first)
    }
}

/// One limit, met, missed by one or passed by one, in either sheet or in both.
fn limits(random: &mut Random) -> WidensCase {
    let step = random.below(3);
    let (made, is_past) = match random.below(3) {
        0 => (random.pick(&SHAPES)(MAX_SCHEMA_ENTRIES - 1 + step), step == 2),
        1 => (schema(holder(false, vec![field(&long(random, MAX_TEXT_BYTES - 1 + step), STRING)]), None), step == 2),
        _ => (of_bytes(MAX_SHEET_BYTES - 1 + step), step == 2),
    };
    let sheet = write_schema(&made);
    let other = if random.chance(50) { sheet.clone() } else { write_schema(&some_schema(random)) };
    let is_first = random.chance(50);
    let (first, second) = if is_first { (sheet.clone(), other.clone()) } else { (other.clone(), sheet.clone()) };
    let case = WidensCase::new(first, second);
    match (is_past, is_first || other == sheet) {
        (true, true) => case.expecting(Expect::Numbers([4, 1, 0, 0, 0])),
        (true, false) => case.expecting(Expect::Numbers([4, 2, 0, 0, 0])),
        (false, _) if other == sheet => case.expecting(Expect::Numbers([0, 1, 0, 0, 0])),
        _ => case,
    }
}

/// A schema whose sheet has that many bytes, with names of equal length but for the last one.
fn of_bytes(bytes: usize) -> Schema {
    let named = |index: usize, length: usize| field(&format!("{index:0length$}"), STRING);
    let with = |last: usize| {
        let fields = (0..100).map(|index| named(index, 280)).chain([named(100, last)]).collect();
        schema(holder(false, fields), None)
    };
    let missing = bytes - write_schema(&with(100)).len();
    with(100 + missing)
}

/// One of the sheets, or both, with a byte changed or a part missing; mostly not well formed.
fn damaged(random: &mut Random) -> WidensCase {
    let mut case = several(random);
    let which = random.below(3);
    if which != 1 {
        case.first = damage(random, &case.first);
    }
    if which != 0 {
        case.second = damage(random, &case.second);
    }
    case
}

fn damage(random: &mut Random, sheet: &[u8]) -> Vec<u8> {
    let mut sheet = sheet.to_vec();
    let at = random.below(sheet.len());
    match random.below(5) {
        0 => return broken(random, &sheet),
        1 => sheet[at] = random.bits() as u8,
        2 => sheet[at] = random.pick(b"0123456789,-\nHF"),
        3 => sheet.truncate(at),
        _ => sheet.insert(at, random.pick(b"0,\n-")),
    }
    sheet
}

/// A result that is too short, or just long enough.
fn short(random: &mut Random) -> WidensCase {
    let case = if random.chance(70) { several(random) } else { damaged(random) };
    let result_len = random.pick(&[0, 1, 4, 20, RESULT_BYTES - 1, RESULT_BYTES]);
    WidensCase { result_len, ..case }
}
