//! Random cases with a defect, of every row of the table of sentences.

use super::renamed::renamed;
use crate::case::{Case, Expect};
use crate::generate::build::{
    all, array, compare, condition, element, exists, field, holder, literal, not, number, object, pair, quantifier, rule, schema, sorted,
    text, value, ARRAY, MAP, OBJECT, UNION,
};
use crate::generate::names::{Names, STOCK};
use crate::generate::setting::{slips, Setting};
use crate::generate::tables::names;
use crate::generate::{planted, profiles};
use crate::limits::MAX_CONDITION_NESTING;
use crate::random::Random;
use crate::tables;
use model::trees::{Data, Field, Operator, Sheet, Value};

/// A name, how often in a hundred cases it comes, and what makes it.
type Profile = (&'static str, usize, fn(&mut Random) -> Case);

pub const PROFILES: [Profile; 7] = [
    ("planted, with odd names", 35, planted_names),
    ("slips, with odd names", 15, slipped_names),
    ("walks into every kind", 22, walks),
    ("operands as JSON", 15, operands),
    ("depths and binds", 5, depths),
    ("any case", 4, |random| profiles::case(random, &STOCK).1),
    ("any case under a table", 4, |random| tables::generate::case(random).1),
];

/// A case of any profile, and the words for it.
pub fn case(random: &mut Random) -> (&'static str, Case) {
    let mut ticket = random.below(100);
    for (name, share, make) in PROFILES {
        if ticket < share {
            return (name, make(random));
        }
        ticket -= share;
    }
    unreachable!("the shares add up to a hundred")
}

/// The stock names, or in a quarter of the cases those of another table.
fn some_names(random: &mut Random) -> Names {
    if random.chance(25) {
        names(random)
    } else {
        STOCK.clone()
    }
}

fn planted_names(random: &mut Random) -> Case {
    let names = some_names(random);
    let case = planted::case(random, &names);
    renamed(random, case)
}

fn slipped_names(random: &mut Random) -> Case {
    let names = some_names(random);
    let case = slips(random, &names);
    renamed(random, case)
}

const NAMES: [&str; 12] = ["string", "integer", "number", "boolean", "enum", "array", "object", "json", "ref", "map", "union", "binary64"];
const TAGS: [Option<&str>; 6] = [None, Some(""), Some("value"), Some("content"), Some("kind"), Some("it's \"one\"\n")];
const SEGMENTS: [&str; 14] = ["count", "0", "1", "01", "x", "kind", "value", "content", "", "it's", "\"", "\\\u{1}", "counts", "é"];

/// A field of each kind, the union with a tag or without, some of them inside an object and an array.
fn every_kind(random: &mut Random) -> Vec<Field> {
    let of_kind = |random: &mut Random, kind: u8| {
        let made = field(NAMES[usize::from(kind) - 1], kind);
        match kind {
            UNION => Field { tag: random.pick(&TAGS).map(str::to_owned), ..made },
            ARRAY | MAP if random.chance(70) => Field { items: element(field("", random.between(1, 12) as u8)), ..made },
            _ => made,
        }
    };
    let mut fields: Vec<Field> = (1..=12).map(|kind| of_kind(random, kind)).collect();
    let mut inner = sorted(fields.clone());
    inner.retain(|_| random.chance(60));
    let object = |name: &str| Field { properties: inner.clone(), ..field(name, OBJECT) };
    fields.extend([object("o'"), Field { items: element(object("")), ..field("l\"", ARRAY) }]);
    fields
}

/// Paths that go one or two steps past a field of any kind, as references of a rule or template or as what `in` names.
fn walks(random: &mut Random) -> Case {
    let names = some_names(random);
    let mut setting = Setting::new(random, &names);
    if random.chance(20) {
        setting.semantics = 1;
    }
    let mut fields = every_kind(random);
    fields.iter_mut().for_each(|field| field.open = random.chance(10));
    let schema = schema(holder(random.chance(10), fields.clone()), random.chance(80).then(|| holder(random.chance(10), fields)));
    let sheet = walked(random, &setting);
    setting.case(&schema, &sheet).expecting(Expect::Read)
}

fn walked(random: &mut Random, setting: &Setting) -> Sheet {
    let root = random.pick(&["fields", "fields", "old_fields", "args"]);
    let path = path(random);
    if setting.semantics == 1 || random.chance(30) {
        let reference = text(&format!("${root}.{path}"));
        return if random.chance(50) { Sheet::Template(reference) } else { rule(exists(array(vec![reference]))) };
    }
    // Inside a binder of the objects, whose members are the same fields.
    let operator = random.pick(&[20, 21]);
    let first = random.pick(&["$", "$", "x"]);
    let body = match random.below(3) {
        0 => exists(text(&format!("$it's.{path}"))),
        1 => quantifier(operator, "q", text(&format!("{first}it's.{path}")), literal(true)),
        _ => quantifier(operator, "q", text(&format!("${root}.{path}")), exists(text(&format!("$q.{path}")))),
    };
    rule(quantifier(operator, "it's", text(&format!("${root}.l\"")), body))
}

fn path(random: &mut Random) -> String {
    let mut path = random.pick(&["", "", "", "o'.", "l\".0.", "l\".7."]).to_owned();
    path.push_str(if random.chance(92) { random.pick(&NAMES) } else { random.pick(&SEGMENTS) });
    for _ in 0..random.pick(&[0, 1, 1, 1, 2, 2]) {
        path.push('.');
        path.push_str(random.pick(&SEGMENTS));
    }
    path
}

const NUMBERS: [&str; 10] = ["-0", "1E+5", "0", "-0.0e-0", "1e5", "44", "-1.50", "0.1E-07", "1e309", "100000000000000000000000000000"];
const INFINITE: [&str; 8] = ["1E+309", "-1e309", "1e400", "-2E+308", "0.1e310", "1.7976931348623159e308", "99e307", "1000E0000306"];
const CHARACTERS: [char; 18] = [
    '"',
    '\\',
    '/',
    '\u{8}',
    '\t',
    '\n',
    '\u{c}',
    '\r',
    '\0',
    '\u{1}',
    '\u{b}',
    '\u{1f}',
    ' ',
    '\u{7f}',
    '\u{80}',
    '\u{2028}',
    'é',
    '\u{10ffff}',
];

/// A text that is no reference and no instant.
fn odd_text(random: &mut Random) -> String {
    let tail: String = (0..random.between(0, 6)).map(|_| random.pick(&CHARACTERS)).collect();
    format!("{}{tail}", random.pick(&["", "a", "x", "$$", "$$2024-01-01", "2024-01-01Z", "'"]))
}

/// Any value that holds no reference.
fn odd_value(random: &mut Random, depth: usize) -> Value {
    let count = random.between(0, 3);
    match random.below(if depth > 1 { 8 } else { 4 }) {
        0 => value(random.pick(&[Data::Null, Data::Bool(false), Data::Bool(true)])),
        1 | 2 => number(random.pick(&NUMBERS)),
        3 => text(&odd_text(random)),
        4 | 5 => array((0..count).map(|_| odd_value(random, depth - 1)).collect()),
        _ => object((0..count).map(|_| (odd_text(random), odd_value(random, depth - 1))).collect()),
    }
}

/// Operands that are printed: of affixes, instants, the literal pass and `compare`, at the top or in a body.
fn operands(random: &mut Random) -> Case {
    let names = some_names(random);
    let mut setting = Setting::new(random, &names);
    setting.semantics = setting.semantics.max(2);
    let depth = random.between(1, 4);
    let value = odd_value(random, depth);
    let other = text(random.pick(&["2024-01-01", "$id"]));
    let (left, right) = if random.chance(50) { (value, other) } else { (other, value) };
    let leaf = match random.below(8) {
        0..=2 => pair(random.pick(&[16, 17]), left, right),
        3..=5 => pair(random.pick(&[6, 7]), left, right),
        6 => compare(random.between(1, 6) as u8, left, right),
        _ => {
            let infinite = number(random.pick(&INFINITE));
            pair(random.between(8, 15) as u8, left, array(vec![right, infinite]))
        }
    };
    let open = || holder(true, Vec::new());
    let root = if setting.may_read("fields") { "fields" } else { "args" };
    let body = match random.below(3) {
        0 => quantifier(random.pick(&[20, 21]), "b", text(&format!("${root}.a")), leaf),
        1 => all(vec![literal(true), not(leaf)]),
        _ => leaf,
    };
    setting.case(&schema(open(), Some(open())), &rule(body)).expecting(Expect::Read)
}

const BINDS: [&str; 9] = ["", " ", ".", "a.b", "\"\\.\u{1}", "\u{3000}", "\u{85}\t", "it's.", "é.\n"];

/// Conditions deeper than 32, and binds that are none.
fn depths(random: &mut Random) -> Case {
    let names = STOCK.clone();
    let mut setting = Setting::new(random, &names);
    let depth = random.pick(&[33, 34, 64, 99, 100, 101, 200, MAX_CONDITION_NESTING - 1, MAX_CONDITION_NESTING]);
    let tree = if random.chance(60) {
        let core = random.pick(&[literal(true), all(Vec::new()), exists(text("$nope"))]);
        (1..depth).fold(core, |inner, _| match random.below(4) {
            0 => all(vec![literal(true), inner]),
            1 => condition(Operator::Any(vec![inner, literal(false)])),
            2 => quantifier(20, "b", text("$fields.a"), inner),
            _ => not(inner),
        })
    } else {
        setting.semantics = setting.semantics.max(2);
        quantifier(random.pick(&[20, 21]), random.pick(&BINDS), text("$fields.a"), literal(true))
    };
    let open = || holder(true, Vec::new());
    setting.case(&schema(open(), Some(open())), &rule(tree)).expecting(Expect::Read)
}
