//! Cases near the limits of depth: conditions at 32 and at 256, values and fields at 64, binders in a chain.

use crate::case::{Case, Expect};
use crate::generate::build::{
    all, array, condition, element, exists, field, holder, literal, not, object, quantifier, rule, schema, text, ARRAY, OBJECT,
};
use crate::generate::names::Names;
use crate::generate::setting::Setting;
use crate::limits::{MAX_CONDITION_NESTING, MAX_FIELD_NESTING, MAX_VALUE_NESTING};
use crate::random::Random;
use model::trees::{Condition, Field, Operator, Sheet, Value};

/// A condition that is deeper and can be read is refused with 13.
const MAX_CONDITION_DEPTH: usize = 32;

pub fn case(random: &mut Random, names: &Names) -> Case {
    match random.below(4) {
        0 => deep_condition(random, names),
        1 => deep_value(random, names),
        2 => deep_schema(random, names),
        _ => chain(random, names),
    }
}

fn empty() -> model::trees::Schema {
    schema(holder(false, Vec::new()), None)
}

fn deep_condition(random: &mut Random, names: &Names) -> Case {
    let setting = Setting::new(random, names);
    let depth = random.pick(&[1, 30, 31, 32, 33, 34, 100, 254, 255, 256, 257, 258]);
    let core = if random.chance(50) { literal(true) } else { all(Vec::new()) };
    let is_empty = matches!(core.operator, Operator::All(_));
    let tree = (1..depth).fold(core, |inner, _| deeper(random, inner));
    let expect = match depth {
        _ if depth > MAX_CONDITION_NESTING => Expect::Number(5),
        _ if depth > MAX_CONDITION_DEPTH => Expect::Number(13),
        _ if is_empty => Expect::Number(16),
        _ => Expect::Number(0),
    };
    setting.case(&empty(), &rule(tree)).expecting(expect)
}

fn deeper(random: &mut Random, inner: Condition) -> Condition {
    match random.below(4) {
        0 => not(inner),
        1 => all(vec![literal(false), inner]),
        2 => condition(Operator::Any(vec![inner, literal(true)])),
        _ => all(vec![inner]),
    }
}

fn deep_value(random: &mut Random, names: &Names) -> Case {
    let setting = Setting::new(random, names);
    let depth = random.pick(&[62, 63, 64, 65, 66]);
    let wrap =
        |inner: Value, random: &mut Random| if random.chance(50) { array(vec![inner]) } else { object(vec![("k".to_owned(), inner)]) };
    let core = text(if random.chance(50) { "$id" } else { "$nope" });
    let tree = (1..depth).fold(core, |inner, _| wrap(inner, random));
    let expect = if depth > MAX_VALUE_NESTING { Expect::Number(5) } else { Expect::Read };
    let sheet = if random.chance(50) { Sheet::Template(tree) } else { rule(exists(tree)) };
    setting.case(&empty(), &sheet).expecting(expect)
}

/// Fields nested by properties and elements, and a path that leads all the way down, or one step too far.
fn deep_schema(random: &mut Random, names: &Names) -> Case {
    let setting = Setting::new(random, names);
    let depth = random.pick(&[2, 20, 62, 63, 64, 65, 66]);
    let service = setting.semantics > 1;
    let mut path = Vec::new();
    let mut tree = field("a", 2);
    for _ in 1..depth {
        if service && random.chance(40) {
            tree = Field { items: element(tree), ..field("a", ARRAY) };
            path.push("0");
        } else {
            tree = Field { properties: vec![tree], ..field("a", OBJECT) };
            path.push("a");
        }
    }
    path.push("a");
    path.reverse();
    if random.chance(30) {
        path.push("a");
    }
    let root = if setting.may_read("fields") { "fields" } else { "args" };
    let reference = format!("${root}.{}", path.join("."));
    let fields = vec![tree];
    let schema = schema(holder(false, fields.clone()), Some(holder(false, fields)));
    let expect = if depth > MAX_FIELD_NESTING { Expect::Number(4) } else { Expect::Read };
    setting.case(&schema, &Sheet::Template(text(&reference))).expecting(expect)
}

/// Quantifiers one in another, each over the element of the one around it.
fn chain(random: &mut Random, names: &Names) -> Case {
    let mut setting = Setting::new(random, names);
    setting.semantics = random.between(2, 4) as u64;
    let levels = random.pick(&[2, 10, 29, 30, 31, 32]);
    let tree = (0..levels).fold(field("a", 2), |inner, _| {
        let items = Field { properties: vec![Field { name: "a".to_owned(), ..inner }], ..field("", OBJECT) };
        Field { items: element(items), ..field("a", ARRAY) }
    });
    let root = if setting.may_read("fields") { "fields" } else { "args" };
    let last = random.pick(&["a", "zz", "a.count"]);
    let core = exists(text(&format!("${}.{last}", bind(levels))));
    let body = (1..=levels).rev().fold(core, |inner, level| {
        let over = if level == 1 { format!("${root}.a") } else { format!("${}.a", bind(level - 1)) };
        quantifier(random.between(20, 21) as u8, &bind(level), text(&over), inner)
    });
    let schema = schema(holder(false, vec![tree.clone()]), Some(holder(false, vec![tree])));
    setting.case(&schema, &rule(body)).expecting(Expect::Anything)
}

fn bind(level: usize) -> String {
    format!("b{level}")
}
