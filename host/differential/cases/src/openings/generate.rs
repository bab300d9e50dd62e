//! Random rules and templates for a schema that is too closed for them: one mark or many, names below binders, defects that no opening cures, refusals.

use crate::case::Case;
use crate::generate::build::{
    all, array, compare, condition, element, exists, field, holder, literal, not, number, object, pair, quantifier, rule, schema, text,
    value, ARRAY, MAP, OBJECT,
};
use crate::generate::limits::{broken, NO_SETTINGS};
use crate::generate::names::{Names, STOCK};
use crate::generate::profiles;
use crate::generate::rules::BAD_BINDS;
use crate::generate::scope::Scope;
use crate::generate::setting::Setting;
use crate::generate::tables::{damage as damage_table, names, unsound};
use crate::limits::{MAX_FIELD_NESTING, MIN_PATH_BYTES};
use crate::openings::schemas::{objects, ways, with_closed, with_some_open, without_some, Way};
use crate::openings::{Expect, OpeningsCase};
use crate::random::Random;
use model::trees::{Condition, Data, Field, Operator, Schema, Sheet, Value};
use model::{write_rule, write_schema, OPENINGS_BYTES, OPENING_LIST_BYTES};

/// A name, how often in a thousand cases it comes, and what makes it.
type Profile = (&'static str, usize, fn(&mut Random) -> OpeningsCase);

pub const PROFILES: [Profile; 9] = [
    ("reads", 250, reads),
    ("closed", 220, closed),
    ("slips", 120, slips),
    ("incurable", 110, incurable),
    ("binders", 110, binders),
    ("checks", 100, checks),
    ("refusals", 70, refusals),
    ("side by side", 15, side_by_side),
    ("one in another", 5, one_in_another),
];

/// A case of any profile, and the profile's name.
pub fn case(random: &mut Random) -> (&'static str, OpeningsCase) {
    let mut ticket = random.below(1_000);
    for (name, share, make) in PROFILES {
        if ticket < share {
            return (name, make(random));
        }
        ticket -= share;
    }
    unreachable!("the shares add up to a thousand")
}

/// The names of a table in a quarter of the cases, else those of the stock table.
fn own_names(random: &mut Random) -> Names {
    if random.chance(25) {
        names(random)
    } else {
        STOCK.clone()
    }
}

/// A rule or template that reads in several places, for a schema that a setting goes with.
fn sheet(random: &mut Random, setting: &Setting, schema: &Schema, slip: usize) -> Sheet {
    let (scope, count) = (setting.scope(schema, slip), random.between(1, 8));
    let references = |random: &mut Random| array((0..count).map(|_| text(&scope.reference(random))).collect());
    match random.below(12) {
        0 | 1 => setting.sheet(random, schema, slip),
        2 => Sheet::Template(object((0..count).map(|index| (format!("k{index}"), scope.value(random, 2))).collect())),
        3 | 4 => Sheet::Template(references(random)),
        5 | 6 => rule(exists(references(random))),
        7 | 8 => rule(condition(Operator::Any(conditions(random, &scope, count)))),
        _ => rule(all(conditions(random, &scope, count))),
    }
}

/// A setting of any kind, most often one that may read all there is.
fn a_setting<'n>(random: &mut Random, names: &'n Names) -> Setting<'n> {
    let mut setting = Setting::new(random, names);
    if random.chance(60) {
        setting.kind = random.pick(&[2, 4]);
    }
    setting
}

fn conditions(random: &mut Random, scope: &Scope<'_>, count: usize) -> Vec<Condition> {
    let depth = random.between(1, 4);
    (0..count).map(|_| scope.condition(random, depth)).collect()
}

fn made(setting: &Setting, schema: &Schema, sheet: &Sheet) -> OpeningsCase {
    OpeningsCase::of(&setting.case(schema, sheet))
}

/// Names that no holder has, read at some of the holders: the marks of those must be opened, and no others.
fn reads(random: &mut Random) -> OpeningsCase {
    let names = own_names(random);
    let setting = a_setting(random, &names);
    let objects = objects(random);
    let (schema, _) = with_closed(random, &objects, 90);
    let often = random.pick(&[10, 30, 60, 100]);
    let mut read: Vec<Way> = ways(&setting, &schema).into_iter().filter(|_| random.chance(often)).collect();
    random.shuffle(&mut read);
    let references = read.iter().map(|way| format!("{}.{}", way.path, random.pick(&["q", "q", "q.r", "q.count", "q..", "q.0"])));
    let references: Vec<String> = references.collect();
    let sheet = if random.chance(25) {
        Sheet::Template(array(references.iter().map(|reference| text(reference)).collect()))
    } else {
        let conditions = references.iter().map(|reference| reader(random, &setting, text(reference)));
        rule(all(std::iter::once(literal(true)).chain(conditions).collect()))
    };
    let mut set: Vec<u32> = read.iter().filter(|way| !way.open).map(|way| way.number).collect();
    set.sort();
    set.dedup();
    made(&setting, &schema, &sheet).expecting(Expect::Set(set))
}

/// A condition in which nothing but the reference can be wrong.
fn reader(random: &mut Random, setting: &Setting, reference: Value) -> Condition {
    match random.below(if setting.semantics > 1 { 8 } else { 5 }) {
        0 => exists(reference),
        1 => pair(random.between(8, 15) as u8, number("7"), reference),
        2 => pair(random.between(16, 17) as u8, reference, text("q")),
        3 => pair(random.between(6, 7) as u8, text("2024-02-29"), reference),
        4 => not(exists(object(vec![("k".to_owned(), array(vec![reference]))]))),
        5 => compare(random.between(1, 6) as u8, reference, value(Data::Null)),
        6 => condition(Operator::Truthy(reference)),
        _ => quantifier(random.between(20, 21) as u8, "b", reference, exists(text(random.pick(&["$b", "$b.q", "$b.q..", "$b."])))),
    }
}

/// What is right under a schema, under the same with marks closed: opening these again is enough.
fn closed(random: &mut Random) -> OpeningsCase {
    let names = own_names(random);
    let setting = a_setting(random, &names);
    let full = objects(random);
    let sheet = sheet(random, &setting, &full, 0);
    let wide = without_some(random, &full);
    let often = random.pick(&[100, 90, 70, 40]);
    let (schema, closed) = with_closed(random, &wide, often);
    made(&setting, &schema, &sheet).expecting(Expect::Within(closed))
}

/// The same with slips, some of which no opening cures.
fn slips(random: &mut Random) -> OpeningsCase {
    let names = own_names(random);
    let setting = a_setting(random, &names);
    let full = objects(random);
    let slip = random.between(2, 20);
    let sheet = sheet(random, &setting, &full, slip);
    let wide = without_some(random, &full);
    let (schema, _) = with_closed(random, &wide, 80);
    made(&setting, &schema, &sheet).expecting(Expect::Read)
}

/// What opening would cure, with a defect somewhere before, among or after it that no opening does.
fn incurable(random: &mut Random) -> OpeningsCase {
    let names = own_names(random);
    let setting = a_setting(random, &names);
    let full = objects(random);
    let (scope, count) = (setting.scope(&full, 0), random.between(0, 3));
    let sheet = if random.chance(20) {
        let mut values: Vec<Value> = (0..count).map(|_| scope.value(random, 2)).collect();
        values.insert(random.below(count + 1), text(random.pick(&UNREADABLE)));
        Sheet::Template(array(values))
    } else {
        let mut children = conditions(random, &scope, count);
        let defect = defect(random, &scope);
        children.insert(random.below(count + 1), defect);
        rule(condition(if random.chance(50) { Operator::All(children) } else { Operator::Any(children) }))
    };
    let wide = without_some(random, &full);
    let (schema, _) = with_closed(random, &wide, 80);
    made(&setting, &schema, &sheet).expecting(Expect::None)
}

/// References that cannot be read whatever the schema is.
const UNREADABLE: [&str; 8] = ["$", "$nope", "$nope.x", "$fields.", "$args..x", "$state.x", "$id.x", "$ fields.x"];

/// A condition with a defect whatever the schema is.
fn defect(random: &mut Random, scope: &Scope<'_>) -> Condition {
    let right = scope.text(random);
    match random.below(if scope.service { 11 } else { 6 }) {
        0 | 1 => exists(text(random.pick(&UNREADABLE))),
        2 => condition(Operator::Any(Vec::new())),
        3 => pair(16, right, value(Data::Null)),
        4 => pair(6, text("2023-02-29"), right),
        5 => (0..32).fold(literal(true), |inner, _| not(inner)),
        6 => quantifier(20, random.pick(&BAD_BINDS), right, literal(true)),
        7 => quantifier(21, "q", number("7"), literal(true)),
        8 => quantifier(20, "q", text(random.pick(&["abc", "$id", "", "xfields.a"])), literal(true)),
        9 => compare(1, array(Vec::new()), right),
        _ => pair(8, right, number("1e309")),
    }
}

/// Quantifiers in the bodies of quantifiers, over what is below their binders: each name is there, or would be if its holder were open.
fn binders(random: &mut Random) -> OpeningsCase {
    let names = own_names(random);
    let mut setting = Setting::new(random, &names);
    setting.kind = random.pick(&names.rooted());
    setting.semantics = random.between(2, 4) as u64;
    let roots: Vec<_> = ["fields", "old_fields", "args"].into_iter().filter(|root| setting.may_read(root)).collect();
    let root = random.pick(&roots);
    let levels = random.between(1, 4);
    let inner = (1..levels).fold(an_element(Vec::new()), |inner, _| an_element(vec![a_collection("m", MAP, inner)]));
    let root_of = || holder(false, vec![a_collection("l", ARRAY, inner.clone())]);
    let arguments = (root == "args" || random.chance(30)).then(root_of);
    let (schema, closed) = with_some_open(random, &schema(root_of(), arguments));
    let over = format!("${root}.{}", random.pick(&["l", "l", "l", "l", "q", "q.r"]));
    let body = below_binder(random, levels);
    let sheet = rule(quantifier(random.between(20, 21) as u8, "b", text(&over), body));
    made(&setting, &schema, &sheet).expecting(Expect::Within(closed))
}

fn an_element(properties: Vec<Field>) -> Field {
    Field { properties, ..field("", OBJECT) }
}

fn a_collection(name: &str, kind: u8, inner: Field) -> Field {
    Field { items: element(inner), ..field(name, kind) }
}

/// The body of a quantifier that binds `b` to an element with so many levels of collections from it on, or to one that is not known.
fn below_binder(random: &mut Random, levels: usize) -> Condition {
    let read = |random: &mut Random| exists(text(random.pick(&["$b", "$b.q", "$b.q.r", "$b.q..", "$b"])));
    if levels == 1 || random.chance(20) {
        return read(random);
    }
    let path = if random.chance(70) { "m" } else { random.pick(&["q", "q.0", ""]) };
    let first = random.pick(&["x", "$", "b", "-"]);
    // A reference with an empty segment is a defect of its own; where `in` is none, it asks for a name that is not there.
    let path = if first == "$" && path.is_empty() { "q" } else { path };
    let inner = below_binder(random, levels - 1);
    let nested = quantifier(random.between(20, 21) as u8, "b", text(&format!("{first}b.{path}")), inner);
    let mut children = vec![nested, read(random)];
    random.shuffle(&mut children);
    if random.chance(50) {
        all(children)
    } else {
        condition(Operator::Any(children))
    }
}

/// A case of any check.
fn checks(random: &mut Random) -> OpeningsCase {
    let names = own_names(random);
    let mut case = profiles::case(random, &names).1;
    case.label = Vec::new();
    OpeningsCase::of(&case)
}

/// A case with some of the refusals called for: the first of them answers.
fn refusals(random: &mut Random) -> OpeningsCase {
    let mut case = closed(random);
    let table = names(random).lent;
    if case.table.is_empty() && random.chance(80) {
        case = OpeningsCase { table, expect: Expect::Read, ..case };
    }
    for refusal in [5, 4, 38, 37, 36, 3, 1] {
        if random.chance(25) && (!case.table.is_empty() || !matches!(refusal, 37 | 38)) {
            refuse(random, &mut case, refusal);
            case.expect = Expect::Refused(refusal);
        }
    }
    case
}

/// Changes the case so that the refusal applies. A table is made unsound before it is damaged.
pub fn refuse(random: &mut Random, case: &mut OpeningsCase, refusal: u32) {
    match refusal {
        1 if random.chance(50) => case.kind = random.pick(&NO_SETTINGS),
        1 => case.semantics = random.pick(&[0, 5, 6, (1 << 32) + 2, u64::MAX]),
        3 if random.chance(50) => case.path_len = random.pick(&[0, MIN_PATH_BYTES - 1]),
        3 => case.result_len = random.pick(&[0, OPENINGS_BYTES - 1]),
        36 => case.list_len = random.pick(&[0, 4, OPENING_LIST_BYTES - 4, OPENING_LIST_BYTES - 1]),
        37 => damage_table(random, &mut case.table),
        38 => unsound(random, &mut case.table),
        4 => case.schema = broken(random, &case.schema),
        _ => case.rule = broken(random, &case.rule),
    }
}

/// Many closed objects, of which some have to be opened.
fn side_by_side(random: &mut Random) -> OpeningsCase {
    let (count, often) = (random.between(20, 150), random.pick(&[2, 30, 100]));
    let mut numbers: Vec<usize> = (0..count + 2).filter(|_| random.chance(often)).collect();
    random.shuffle(&mut numbers);
    of_objects(count, &numbers)
}

/// So many closed objects in a closed record, beside closed arguments, and a rule that needs these marks, in this order.
pub fn of_objects(count: usize, marks: &[usize]) -> OpeningsCase {
    let name = |index: usize| format!("{index:04}");
    let fields = (0..count).map(|index| field(&name(index), OBJECT)).collect();
    let schema = schema(holder(false, fields), Some(holder(false, Vec::new())));
    let reference = |mark: &usize| match mark {
        0 => text("$args.q"),
        1 => text("$fields.q"),
        entry => text(&format!("$fields.{}.q", name(entry - 2))),
    };
    let sheet = rule(exists(array(marks.iter().map(reference).collect())));
    let case = Case::new(2, 2, b"", write_schema(&schema), write_rule(&sheet));
    let mut set: Vec<u32> = marks.iter().map(|mark| *mark as u32).collect();
    set.sort();
    OpeningsCase::of(&case).expecting(Expect::Set(set))
}

/// Closed objects in closed objects, as deep as they may be, of which some have to be opened.
fn one_in_another(random: &mut Random) -> OpeningsCase {
    let (levels, often) = (random.between(2, MAX_FIELD_NESTING), random.pick(&[5, 30, 100]));
    let mut numbers: Vec<usize> = (1..=levels + 1).filter(|_| random.chance(often)).collect();
    random.shuffle(&mut numbers);
    of_levels(levels, &numbers)
}

/// So many levels of closed objects in a closed record, and a rule that needs these marks, in this order.
pub fn of_levels(levels: usize, marks: &[usize]) -> OpeningsCase {
    let nested = (0..levels).fold(Vec::new(), |properties, _| vec![Field { properties, ..field("n", OBJECT) }]);
    let schema = schema(holder(false, nested), None);
    let reference = |mark: &usize| text(&format!("$fields{}.q", ".n".repeat(mark - 1)));
    let sheet = rule(exists(array(marks.iter().map(reference).collect())));
    let case = Case::new(1, 1, b"", write_schema(&schema), write_rule(&sheet));
    let mut set: Vec<u32> = marks.iter().map(|mark| *mark as u32).collect();
    set.sort();
    OpeningsCase::of(&case).expecting(Expect::Set(set))
}
