//! Cases with one defect planted after conditions that are right: number and detail are known beforehand.

use crate::case::{Case, Expect};
use crate::generate::build::{
    all, array, compare, condition, element, exists, field, literal, not, number, object, pair, quantifier, sorted, text, value, ARRAY,
    INTEGER, MAP, OBJECT, STRING, UNION,
};
use crate::generate::names::{Names, ALL_NAMES};
use crate::generate::rules::{BAD_BINDS, BLANKS};
use crate::generate::schemas;
use crate::generate::scope::Scope;
use crate::generate::setting::Setting;
use crate::generate::values::{near_bound, INSTANTS, NO_INSTANTS};
use crate::random::Random;
use model::trees::{Condition, Data, Field, Holder, Operator, Rule, Schema, Sheet, Value};
use model::write_rule;

/// Every number from 11 on with each of its details; those that can come about in many ways are listed twice.
pub const TARGETS: [(u32, u32); 32] = [
    (11, 0),
    (12, 0),
    (13, 0),
    (14, 0),
    (15, 0),
    (16, 0),
    (17, 1),
    (17, 2),
    (18, 1),
    (18, 2),
    (18, 3),
    (18, 4),
    (18, 5),
    (18, 6),
    (18, 7),
    (18, 8),
    (18, 9),
    (18, 10),
    (18, 11),
    (18, 12),
    (19, 0),
    (20, 1),
    (20, 2),
    (21, 0),
    (22, 1),
    (22, 2),
    (22, 3),
    (22, 4),
    (22, 5),
    (18, 11),
    (18, 12),
    (14, 0),
];

/// The fields that defects are planted on.
const PLANTED: [&str; 7] = ["parr", "pobjs", "pmap", "puni", "pstr", "pobj", "pint"];

/// Binds that hide no root.
const PLAIN_BINDS: [&str; 4] = ["b", "c", "x", "q"];

/// A bind that only planted quantifiers use.
const OWN_BIND: &str = "w";

pub fn case(random: &mut Random, names: &Names) -> Case {
    let target = random.pick(&TARGETS);
    planted(random, names, target)
}

/// A case with that number and detail.
pub fn planted(random: &mut Random, names: &Names, target: (u32, u32)) -> Case {
    let setting = setting(random, names, target);
    let mut schema = schema(random, target, &setting);
    let plant = Plant { target, scope: setting.scope(&schema, 0) };
    let sheet = plant.sheet(random);
    if random.chance(70) {
        drop_unread(&mut schema, &sheet);
    }
    setting.case(&schema, &sheet).expecting(Expect::Detail(target.0, target.1))
}

/// Drops the planted fields that the rule does not name, which changes no answer and keeps the case small.
fn drop_unread(schema: &mut Schema, sheet: &Sheet) {
    let rule = write_rule(sheet);
    let is_named = |name: &str| rule.windows(name.len()).any(|part| part == name.as_bytes());
    let holders = std::iter::once(&mut schema.record).chain(&mut schema.arguments);
    for holder in holders {
        holder.fields.retain(|field| !PLANTED.contains(&field.name.as_str()) || is_named(&field.name));
    }
}

/// A setting under which the defect can occur. Most details of a reference and all of a collection need a root that can be read.
fn setting<'n>(random: &mut Random, names: &'n Names, (number, detail): (u32, u32)) -> Setting<'n> {
    let mut setting = Setting::new(random, names);
    let rooted = names.rooted();
    if matches!((number, detail), (18, ..=10) | (22, _)) && !rooted.contains(&setting.kind) {
        setting.kind = random.pick(&rooted);
    }
    match (number, detail) {
        (15, _) => setting.semantics = 1,
        (14 | 17 | 21 | 22, _) | (18, 4..=9) if setting.semantics == 1 => setting.semantics = random.between(2, 4) as u64,
        _ => {}
    }
    setting
}

/// A random schema to which the fields that are planted on are added, in the record and in the arguments.
fn schema(random: &mut Random, target: (u32, u32), setting: &Setting) -> Schema {
    let mut schema = schemas::schema(random, 2);
    let mut arguments = schema.arguments.take().unwrap_or(Holder { open: false, fields: Vec::new() });
    for holder in [&mut schema.record, &mut arguments] {
        let ground = ground(random);
        holder.fields = sorted(holder.fields.drain(..).chain(ground).collect());
        holder.open &= target != (18, 2);
    }
    // Detail 11 also comes where the kind may read the arguments and there are none: the only way for kinds that may read every root.
    let reads_all = setting.may_read("args") && setting.may_read("old_fields");
    let without = target == (18, 11) && setting.may_read("args") && (reads_all || random.chance(50));
    schema.arguments = (!without).then_some(arguments);
    schema
}

fn ground(random: &mut Random) -> Vec<Field> {
    let leaf = field("pint", random.pick(&[2, 3, 4, 5, 9, 12]));
    let closed = Field { properties: vec![field("k", INTEGER)], ..field("pobj", OBJECT) };
    vec![
        Field { items: element(leaf.clone()), ..field("parr", ARRAY) },
        Field { items: element(closed.clone()), ..field("pobjs", ARRAY) },
        Field { items: element(leaf.clone()), ..field("pmap", MAP) },
        Field { tag: Some("t".to_owned()), ..field("puni", UNION) },
        field("pstr", STRING),
        closed,
        leaf,
    ]
}

struct Plant<'s> {
    target: (u32, u32),
    scope: Scope<'s>,
}

impl Plant<'_> {
    fn sheet(&self, random: &mut Random) -> Sheet {
        if self.target.0 == 18 && random.chance(20) {
            let reference = text(&self.reference(random));
            return Sheet::Template(self.nested(random, reference));
        }
        let heading = |random: &mut Random| random.chance(30).then(|| "n".to_owned());
        let blank = |random: &mut Random| Some((random.pick(&BLANKS)).to_owned());
        let name = if self.target.0 == 11 { blank(random) } else { heading(random) };
        let message = if self.target.0 == 12 { blank(random) } else { heading(random) };
        Sheet::Rule(Rule { name, message, condition: self.body(random) })
    }

    fn body(&self, random: &mut Random) -> Condition {
        match self.target.0 {
            11 | 12 => self.scope.condition(random, 4),
            13 => {
                let levels = random.between(32, 40);
                (0..levels).fold(literal(true), |inner, _| if random.chance(50) { not(inner) } else { all(vec![inner]) })
            }
            _ => {
                let levels = random.between(0, 3);
                self.bury(random, &self.scope, levels)
            }
        }
    }

    /// The defect under some levels of conditions, right ones before it.
    fn bury(&self, random: &mut Random, scope: &Scope<'_>, levels: usize) -> Condition {
        if levels == 0 {
            return self.fault(random, scope);
        }
        match random.below(6) {
            0 => not(self.bury(random, scope, levels - 1)),
            1 | 2 => self.among(random, scope, levels),
            _ => match scope.over(random).filter(|_| scope.service) {
                Some((over, element)) => {
                    let bind = random.pick(&PLAIN_BINDS);
                    let body = self.bury(random, &scope.bound(bind, element), levels - 1);
                    quantifier(random.between(20, 21) as u8, bind, text(&over), body)
                }
                None => self.among(random, scope, levels),
            },
        }
    }

    /// Siblings before the defect are right. Those after it may be anything, as long as no earlier check meets them.
    fn among(&self, random: &mut Random, scope: &Scope<'_>, levels: usize) -> Condition {
        let before = random.between(0, 2);
        let mut children: Vec<_> = (0..before).map(|_| scope.condition(random, 2)).collect();
        children.push(self.bury(random, scope, levels - 1));
        if random.chance(50) {
            let met_later = !scope.service || self.target.0 == 14;
            let after = Scope { slip: if met_later { 40 } else { 0 }, ..scope.clone() };
            children.push(after.condition(random, 2));
        }
        condition(if random.chance(50) { Operator::All(children) } else { Operator::Any(children) })
    }

    fn fault(&self, random: &mut Random, scope: &Scope<'_>) -> Condition {
        match self.target {
            (14, _) => self.literal_fault(random, scope),
            (15, _) => service_condition(random, scope),
            (16, _) => condition(if random.chance(50) { Operator::All(Vec::new()) } else { Operator::Any(Vec::new()) }),
            (17, side) => compare_fault(random, scope, side),
            (18, _) => {
                let reference = text(&self.reference(random));
                self.carrier(random, scope, reference)
            }
            (19, _) => {
                let operand = self.no_string(random);
                ordered(random, scope, [16, 17], operand)
            }
            (20, detail) => {
                let operand = self.no_instant(random, detail);
                ordered(random, scope, [6, 7], operand)
            }
            (21, _) => quantifier(random.between(20, 21) as u8, random.pick(&BAD_BINDS), scope.value(random, 2), literal(true)),
            (_, detail) => self.over_fault(random, detail),
        }
    }

    fn literal_fault(&self, random: &mut Random, scope: &Scope<'_>) -> Condition {
        let infinite = if random.chance(50) { "1e309".to_owned() } else { far_above(random) };
        let operand = number(&infinite);
        match random.below(3) {
            0 => condition(Operator::Truthy(self.nested(random, operand))),
            1 => compare(random.between(1, 6) as u8, scope.scalar(random), operand),
            _ => pair(random.between(8, 15) as u8, scope.value(random, 2), self.nested(random, operand)),
        }
    }

    /// A value inside arrays and objects, with right values before it; a member after it may be a defect of its own, whatever their keys.
    fn nested(&self, random: &mut Random, inner: Value) -> Value {
        let members = |members: [(&str, Value); 2]| object(members.map(|(key, value)| (key.to_owned(), value)).to_vec());
        match random.below(8) {
            0 | 1 => array(vec![self.scope.scalar(random), inner, self.scope.scalar(random)]),
            2 => members([("a", self.scope.scalar(random)), ("k", inner)]),
            3 => members([("k", self.scope.scalar(random)), ("a", inner)]),
            4 => {
                let behind = if self.target.0 == 14 { number("2e309") } else { text("$none") };
                members([(random.pick(&["a", "k"]), inner), ("b", behind)])
            }
            5 => array(vec![object(vec![("$id".to_owned(), inner)])]),
            _ => inner,
        }
    }

    /// A condition that reads the value at some operand.
    fn carrier(&self, random: &mut Random, scope: &Scope<'_>, operand: Value) -> Condition {
        match random.below(if scope.service { 7 } else { 4 }) {
            0 => exists(self.nested(random, operand)),
            1 => pair(random.between(8, 15) as u8, scope.value(random, 2), self.nested(random, operand)),
            2 => pair(random.between(16, 17) as u8, scope.text(random), operand),
            3 => ordered(random, scope, [6, 7], operand),
            4 => condition(Operator::Truthy(self.nested(random, operand))),
            5 => compare(random.between(1, 6) as u8, scope.scalar(random), operand),
            _ => quantifier(random.between(20, 21) as u8, "q", operand, literal(true)),
        }
    }

    fn no_string(&self, random: &mut Random) -> Value {
        match random.below(4) {
            0 => value(Data::Null),
            1 => value(Data::Bool(false)),
            2 => number("44"),
            _ => array(vec![self.scope.text(random)]),
        }
    }

    fn no_instant(&self, random: &mut Random, detail: u32) -> Value {
        if detail == 1 {
            return text(&format!("$${}", random.pick(&INSTANTS)));
        }
        match random.below(4) {
            0 => self.no_string(random),
            1 => text(&format!(" {}", self.scope.reference(random))),
            _ => text(random.pick(&NO_INSTANTS)),
        }
    }

    /// A root that the kind may read and that has the planted fields.
    fn root(&self, random: &mut Random) -> &'static str {
        let is_there = |root: &&str| self.scope.may_read(root) && (*root != "args" || self.scope.schema.arguments.is_some());
        let roots: Vec<_> = ["fields", "old_fields", "args"].into_iter().filter(is_there).collect();
        random.pick(&roots)
    }

    fn reference(&self, random: &mut Random) -> String {
        let detail = self.target.1;
        if detail >= 11 {
            return self.unreadable(random, detail);
        }
        let root = self.root(random);
        let leaf = random.pick(&["pint", "parr.0", "pobj.k", "pobjs.0.k"][..if self.scope.service { 4 } else { 1 }]);
        let path = match detail {
            1 => (random.pick(&["", ".x", "pobj.", "pobj..k"])).to_owned(),
            2 => (random.pick(&["zz", "zz.x", "zz.", "parrx"])).to_owned(),
            3 => (random.pick(&["pobj.zz", "pobj.count", "pobj.zz."])).to_owned(),
            4 => format!("parr.{}", random.pick(&["zz", "01", "-1", "Count", "0x.y", "１"])),
            5 => format!("pmap.{}", random.pick(&["zz", "0", "0.count", "counts"])),
            6 => format!("{}.count.{}", random.pick(&["parr", "pmap", "pstr", "pobjs"]), random.pick(&["", "x", "0", "count"])),
            7 => format!("puni.t.{}", random.pick(&["", "x", "t", "value"])),
            8 => format!("puni.{}", random.pick(&["zz", "count", "content", "0.x"])),
            9 => format!("{leaf}.count{}", random.pick(&["", ".x", "."])),
            _ => format!("{leaf}.{}", random.pick(&["zz", "0", "0.count", "counts"])),
        };
        format!("${root}.{path}")
    }

    fn unreadable(&self, random: &mut Random, detail: u32) -> String {
        let hidden = |name: &&str| !self.scope.may_read(name);
        if detail == 12 {
            let bare = ALL_NAMES.into_iter().filter(hidden).map(|name| format!("${name}"));
            let never = ["$", "$.x", "$nope", "$id.x", "$Fields.a", "$fieldsx", "$state.x", "$é", "$ id"].map(str::to_owned);
            let all: Vec<_> = bare.chain(never).collect();
            return random.pick(&all);
        }
        let absent = |root: &&str| hidden(root) || (*root == "args" && self.scope.schema.arguments.is_none());
        let roots: Vec<_> = ["fields", "old_fields", "args"].into_iter().filter(absent).collect();
        format!("${}.{}", random.pick(&roots), random.pick(&["", "parr", "zz.y", "pobj.k"]))
    }

    fn over_fault(&self, random: &mut Random, detail: u32) -> Condition {
        let operator = random.between(20, 21) as u8;
        let root = self.root(random);
        let over = match detail {
            1 => self.no_string(random),
            2 => return within(operator, root, random.pick(&["xw.zz", "ww.zz.k", "-w.", "xw.count"])),
            3 if random.chance(30) => return within(operator, root, random.pick(&["xw.k.m", "xw.k.", "ww.k.count"])),
            3 => text(&format!("${root}.{}.count", random.pick(&["parr", "pmap", "pstr", "pobjs"]))),
            4 => text(&format!("${root}.{}", random.pick(&["pint", "pobj", "pstr", "puni", "pobj.k", "parr.0", "pobjs.1"]))),
            _ => text(random.pick(&["abc", "", "$id", "$version", "$$zz", "fields.parr", "é", " $id"])),
        };
        quantifier(operator, "q", over, literal(true))
    }
}

/// A quantifier over `over` inside one that binds closed objects.
fn within(operator: u8, root: &str, over: &str) -> Condition {
    let inner = quantifier(operator, "q", text(over), literal(true));
    quantifier(operator, OWN_BIND, text(&format!("${root}.pobjs")), inner)
}

/// A pair of one of the operators, the operand on one side and a right instant or text on the other.
fn ordered(random: &mut Random, scope: &Scope<'_>, operators: [u8; 2], operand: Value) -> Condition {
    let operator = random.pick(&operators);
    let right = scope.instant(random);
    if random.chance(50) {
        pair(operator, right, operand)
    } else {
        pair(operator, operand, right)
    }
}

/// One of the operators that only a service semantics has, whatever its operands.
fn service_condition(random: &mut Random, scope: &Scope<'_>) -> Condition {
    let wrong = Scope { slip: 50, ..scope.clone() };
    match random.below(3) {
        0 => compare(1, wrong.value(random, 2), wrong.value(random, 2)),
        1 => condition(Operator::Truthy(wrong.value(random, 2))),
        _ => quantifier(random.between(20, 21) as u8, random.pick(&BAD_BINDS), wrong.value(random, 2), literal(true)),
    }
}

/// `compare` with an array or object on that side, and a right value on the left of a wrong right side.
fn compare_fault(random: &mut Random, scope: &Scope<'_>, side: u32) -> Condition {
    let wrong = if random.chance(50) { array(vec![text("$nope")]) } else { object(vec![("a".to_owned(), text("$"))]) };
    let other = scope.scalar(random);
    let comparison = random.between(1, 6) as u8;
    match side {
        1 => compare(comparison, wrong, other),
        _ => compare(comparison, other, wrong),
    }
}

/// A number that lies above the bound by at least a tenth.
fn far_above(random: &mut Random) -> String {
    let near = near_bound(random);
    let (mantissa, exponent) = near.split_once(['e', 'E']).expect("it is written with an exponent");
    let exponent: i64 = exponent.parse().expect("its exponent is small");
    format!("{mantissa}e{}", exponent + 3)
}
