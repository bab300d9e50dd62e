//! Rules that compare instants: in several spellings, one field apart, equal across spellings, and texts that are not instants.

use crate::case::{Case, Expect};
use crate::generate::build::{all, compare, condition, exists, holder, literal, not, pair, quantifier, rule, schema, text};
use crate::generate::names::STOCK;
use crate::generate::profiles::{self, PROFILES};
use crate::generate::values;
use crate::random::Random;
use model::table::Table;
use model::trees::{Condition, Operator, Sheet, Value};
use model::{write_rule, write_schema};

/// Year, month, day, hour, minute, second, nanoseconds.
type Fields = [u32; 7];

/// The largest value of each field whatever the others are, and the smallest.
const BOUNDS: [(u32, u32); 7] = [(0, 9999), (1, 12), (1, 28), (0, 23), (0, 59), (0, 60), (0, 999_999_999)];

/// A random case, and which sort it is.
pub fn case(random: &mut Random) -> (&'static str, Case) {
    match random.below(20) {
        0 => {
            let (profile, case) = profiles::case(random, &STOCK);
            (PROFILES[profile].0, case)
        }
        1 => ("a template", template(random)),
        _ => ("instants", instants(random)),
    }
}

fn instants(random: &mut Random) -> Case {
    let depth = random.between(1, 4);
    let slip = random.pick(&[0, 0, 0, 1, 4]);
    let sheet = rule(tree(random, depth, slip));
    made(random, &sheet)
}

fn template(random: &mut Random) -> Case {
    let value = text(&spelled(random, [2024, 1, 1, 0, 0, 0, 0]));
    made(random, &Sheet::Template(value))
}

/// The sheet under an open record, so that every path can be read, now and then with the stock table written out.
fn made(random: &mut Random, sheet: &Sheet) -> Case {
    let (kind, semantics) = (random.between(1, 8) as u64, random.pick(&[1, 2, 2, 3, 4]));
    let open = write_schema(&schema(holder(true, Vec::new()), Some(holder(true, Vec::new()))));
    let case = Case::new(kind, semantics, b"r", open, write_rule(sheet)).expecting(Expect::Read);
    if random.chance(20) {
        case.under(Table::stock().write())
    } else {
        case
    }
}

/// A condition of that depth at most, in a hundred of whose operands so many are amiss.
fn tree(random: &mut Random, depth: usize, slip: usize) -> Condition {
    let child = |random: &mut Random| tree(random, depth - 1, slip);
    match random.below(if depth > 1 { 10 } else { 5 }) {
        0..=3 => comparison(random, slip),
        4 => other(random),
        5 => not(child(random)),
        6 => quantifier(random.pick(&[20, 21]), "b", text(random.pick(&["$fields.a", "$args.a.b"])), child(random)),
        _ => {
            let children = (0..random.between(1, 4)).map(|_| child(random)).collect();
            if random.chance(50) {
                all(children)
            } else {
                condition(Operator::Any(children))
            }
        }
    }
}

/// `before` or `after`.
fn comparison(random: &mut Random, slip: usize) -> Condition {
    let fields = fields(random);
    let others = beside(random, fields);
    let [left, right] = [fields, others].map(|fields| operand(random, fields, slip));
    let (left, right) = if random.chance(50) { (left, right) } else { (right, left) };
    pair(random.pick(&[6, 7]), left, right)
}

/// A condition that is never constant, with operands that would be.
fn other(random: &mut Random) -> Condition {
    let fields = fields(random);
    let [left, right] = [(); 2].map(|()| text(&spelled(random, fields)));
    match random.below(6) {
        0 => pair(random.pick(&[8, 9, 10, 11, 12, 13]), left, right),
        1 => pair(random.pick(&[14, 15, 16, 17]), left, right),
        2 => compare(random.between(1, 6) as u8, left, right),
        3 => exists(left),
        4 => condition(Operator::Truthy(left)),
        _ => literal(random.chance(50)),
    }
}

fn operand(random: &mut Random, fields: Fields, slip: usize) -> Value {
    let spelled = spelled(random, fields);
    match random.below(100) {
        amiss if amiss < slip => text(&match random.below(4) {
            0 => format!("$${spelled}"),
            1 => random.pick(&values::NO_INSTANTS).to_owned(),
            2 => format!("${spelled}"),
            _ => format!("{spelled}x"),
        }),
        odd if odd % 10 == 9 => text(random.pick(&["$id", "$fields.d", "$args.on", "$version"])),
        _ => text(&spelled),
    }
}

fn fields(random: &mut Random) -> Fields {
    let mut fields = BOUNDS.map(|(low, high)| match random.below(4) {
        0 => low,
        1 => high,
        _ => random.between(low as usize, high as usize) as u32,
    });
    let zeros = random.pick(&[0, 0, 1, 4]);
    fields[7 - zeros..].fill(0);
    fields
}

/// The same instant, or one that differs in one field, by 1 most often; now and then any other.
fn beside(random: &mut Random, fields: Fields) -> Fields {
    let mut others = fields;
    let at = random.below(7);
    let (low, high) = BOUNDS[at];
    match random.below(10) {
        0..=3 => {}
        4..=7 => others[at] = (fields[at] + 1).min(high),
        8 => others[at] = random.between(low as usize, high as usize) as u32,
        _ => return self::fields(random),
    }
    others
}

/// One of the texts of an instant.
fn spelled(random: &mut Random, fields: Fields) -> String {
    let [year, month, day, hour, minute, second, nanoseconds] = fields;
    let date = format!("{year:04}-{month:02}-{day:02}");
    let is_midnight = fields[3..] == [0; 4];
    let time = if is_midnight && random.chance(50) {
        String::new()
    } else {
        let separator = random.pick(&["T", "t", " "]);
        let zone = random.pick(&["", "Z", "z"]);
        format!("{separator}{hour:02}:{minute:02}:{second:02}{}{zone}", fraction(random, nanoseconds))
    };
    let [before, behind] = [(); 2].map(|()| random.pick(&["", "", "", "", " ", "\n", "\u{3000}", "\u{85}\t"]));
    format!("{before}{date}{time}{behind}")
}

/// A fraction with as many zeros at its end as there is room for, or none if it is 0.
fn fraction(random: &mut Random, nanoseconds: u32) -> String {
    let digits = format!("{nanoseconds:09}");
    let least = digits.trim_end_matches('0').len();
    let some = random.between(least, 9);
    let count = random.pick(&[least, some, 9]);
    if count == 0 {
        String::new()
    } else {
        format!(".{}", &digits[..count])
    }
}
