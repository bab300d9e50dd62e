//! Random schemas: few names, so that references meet them, and every kind of holder.

use crate::generate::build::{element, field, holder, sorted, ARRAY, JSON, MAP, OBJECT, STRING, UNION};
use crate::random::Random;
use model::trees::{Field, Holder, Schema};

/// Names that collide with roots, binders, ordinals, tags and counts, or that hold dots, blanks and pieces of messages.
pub const NAMES: [&str; 28] = [
    "a",
    "b",
    "c",
    "d",
    "é",
    "x",
    "xb",
    "$b",
    "count",
    "value",
    "content",
    "fields",
    "args",
    "id",
    "0",
    "1",
    "7",
    "01",
    "10",
    "",
    "a.b",
    "t",
    " ",
    "a' cannot resolve: the path is empty",
    "' is a count, so '",
    "b,c",
    "n\nn",
    "日本",
];

const TAGS: [&str; 10] = ["value", "t", "content", "count", "0", "", "é", "x.y", "b", "' and 'value"];

/// The names that a random schema takes most of the time.
const COMMON_NAMES: usize = 12;

pub fn name(random: &mut Random) -> &'static str {
    let common = random.chance(70);
    NAMES[random.below(if common { COMMON_NAMES } else { NAMES.len() })]
}

pub fn schema(random: &mut Random, fields: usize) -> Schema {
    let record = a_holder(random, fields);
    let arguments = random.chance(65).then(|| a_holder(random, fields));
    Schema { record, arguments }
}

fn a_holder(random: &mut Random, fields: usize) -> Holder {
    let open = random.chance(20);
    let count = random.between(0, fields);
    let fields = (0..count).map(|_| a_field(random, 4)).collect();
    holder(open, fields)
}

/// A field with a random name, its nesting at most `depth`.
pub fn a_field(random: &mut Random, depth: usize) -> Field {
    let kind = a_kind(random);
    let name = name(random);
    of_kind(random, name, kind, depth)
}

/// Kinds with members come more often than leaves.
fn a_kind(random: &mut Random) -> u8 {
    match random.below(100) {
        0..=27 => OBJECT,
        28..=52 => ARRAY,
        53..=63 => MAP,
        64..=75 => UNION,
        76..=81 => JSON,
        82..=89 => STRING,
        _ => random.between(1, 12) as u8,
    }
}

/// A field of that kind with what usually goes with it; now and then with what does not.
pub fn of_kind(random: &mut Random, name: &str, kind: u8, depth: usize) -> Field {
    let mut made = field(name, kind);
    made.open = random.chance(20);
    let usual = |random: &mut Random, is: bool| random.chance(if is { 85 } else { 4 });
    if usual(random, kind == UNION) {
        made.tag = Some((random.pick(&TAGS)).to_owned());
    }
    if depth > 1 && usual(random, matches!(kind, ARRAY | MAP)) {
        made.items = element(a_field(random, depth - 1));
    }
    if depth > 1 && usual(random, kind == OBJECT) {
        let count = random.between(1, 3);
        made.properties = sorted((0..count).map(|_| a_field(random, depth - 1)).collect());
    }
    made
}
