//! Random values: references, texts, numbers on both sides of the bound, instants, nested ones.

use crate::bound::bound;
use crate::generate::build::{array, number, object, text, value};
use crate::generate::schemas::name;
use crate::generate::scope::Scope;
use crate::random::Random;
use model::trees::{Data, Value};

const FINITE: [&str; 16] = [
    "0",
    "-0",
    "7",
    "-1.5",
    "1e308",
    "1E+308",
    "1.7976931348623158e308",
    "-1.7976931348623158e308",
    "0e99999",
    "0.000e-7",
    "1e-400",
    "5e-324",
    "9007199254740993",
    "1e-99999999999999999999",
    "17976931348623157e292",
    "0.00017976931348623157E312",
];

const INFINITE: [&str; 8] =
    ["1e309", "-1e309", "1.7976931348623159e308", "1e400", "-2E+308", "1e99999999999999999999", "0.1e310", "18446744073709551616e500"];

/// Numbers that stay out of the runs with the Rust.
const KEPT_OUT: [&str; 6] =
    ["0e1000001", "-0.0E-9999999", "1e9223372036854775807", "1e-9223372036854774784", "0e99999999999999999999", "5E+9223372036854775000"];

/// Texts that are not references.
const TEXTS: [&str; 18] = [
    "",
    "x",
    "b",
    "xb",
    "é",
    "$$",
    "$$b",
    "$$fields.a",
    "$$2024-01-01",
    " $id",
    "fields.a",
    "null",
    "2024-02-29",
    "a\"b\\c\u{1}\u{7f}",
    "\n",
    ",",
    "日本語",
    "' is not a string, so the rule would be false",
];

pub const INSTANTS: [&str; 14] = [
    "2024-02-29",
    "0000-02-29",
    "2000-02-29",
    "1999-12-31",
    "2024-01-01T00:00:00",
    "2024-01-01t23:59:60",
    "2024-01-01 12:34:56.789Z",
    "2024-01-01T12:34:56.123456789z",
    " 2024-01-01 ",
    "\u{3000}2024-01-01\u{85}",
    "9999-12-31T23:59:60.0Z",
    "2024-04-30",
    "2024-11-30T01:02:03Z",
    "0001-01-01",
];

pub const NO_INSTANTS: [&str; 20] = [
    "2023-02-29",
    "1900-02-29",
    "2024-13-01",
    "2024-00-10",
    "2024-01-00",
    "2024-01-32",
    "2024-04-31",
    "2024-01-01Z",
    "2024-01-01T24:00:00",
    "2024-01-01T00:60:00",
    "2024-01-01T00:00:61",
    "2024-01-01T00:00:00.",
    "2024-01-01T00:00:00.1234567890",
    "2024-01-01T00:00:00+00:00",
    "2024-01-01T00:00",
    "24-01-01",
    "２024-01-01",
    "2024-1-1",
    "\u{feff}2024-01-01",
    "2024-01-01  00:00:00",
];

impl Scope<'_> {
    pub fn text(&self, random: &mut Random) -> Value {
        if random.chance(60) {
            return text(&self.reference(random));
        }
        text(if random.chance(80) { random.pick(&TEXTS) } else { random.pick(&INSTANTS) })
    }

    /// A number that the literal pass may meet.
    pub fn number(&self, random: &mut Random) -> Value {
        if !random.chance(self.slip) {
            return if random.chance(70) { number(random.pick(&FINITE)) } else { number(&finite(random)) };
        }
        match random.below(20) {
            0..=8 => number(random.pick(&INFINITE)),
            9..=18 => number(&near_bound(random)),
            _ => number(random.pick(&KEPT_OUT)),
        }
    }

    /// A value that `compare` takes.
    pub fn scalar(&self, random: &mut Random) -> Value {
        match random.below(10) {
            0..=5 => self.text(random),
            6..=7 => self.number(random),
            8 => value(Data::Bool(random.chance(50))),
            _ => value(Data::Null),
        }
    }

    /// Any value that nests at most `depth` deep.
    pub fn value(&self, random: &mut Random, depth: usize) -> Value {
        if depth <= 1 || random.chance(75) {
            return self.scalar(random);
        }
        let count = random.between(0, 3);
        if random.chance(50) {
            return array((0..count).map(|_| self.value(random, depth - 1)).collect());
        }
        let mut members: Vec<_> = (0..count).map(|_| (key(random), self.value(random, depth - 1))).collect();
        // They come in no order; in half of the cases they rise.
        if random.chance(50) {
            members.sort_by(|(one, _), (other, _)| one.as_bytes().cmp(other.as_bytes()));
        }
        object(members)
    }

    /// An operand of `before` or `after`.
    pub fn instant(&self, random: &mut Random) -> Value {
        if random.chance(self.slip) {
            return match random.below(4) {
                0 => self.value(random, 3),
                1 => text(&format!("$${}", random.pick(&INSTANTS))),
                _ => text(random.pick(&NO_INSTANTS)),
            };
        }
        if random.chance(50) {
            text(&self.reference(random))
        } else {
            text(random.pick(&INSTANTS))
        }
    }
}

/// Keys are never references, whatever they begin with.
fn key(random: &mut Random) -> String {
    match random.below(8) {
        0 => "$id".to_owned(),
        1 => "$fields.nope".to_owned(),
        2 => "k[0]".to_owned(),
        _ => name(random).to_owned(),
    }
}

fn digits(random: &mut Random, count: usize) -> String {
    (0..count).map(|_| char::from(b'0' + random.below(10) as u8)).collect()
}

/// A number of a few digits with a small exponent.
fn finite(random: &mut Random) -> String {
    let count = random.between(1, 12);
    format!("1{}.{}e{}", digits(random, count), digits(random, 3), random.below(280))
}

/// A number whose first digit is at the height of the bound's, or one place off.
pub fn near_bound(random: &mut Random) -> String {
    let bound = bound();
    // All digits often enough that the bound itself comes.
    let keep = if random.chance(20) { bound.len() } else { random.between(1, bound.len()) };
    let tail = if random.chance(50) { 0 } else { random.between(0, 20) };
    let mantissa = format!("{}{}", &bound[..keep], digits(random, tail));
    let point = random.between(1, mantissa.len());
    let exponent = 309 - point as i64 + random.below(3) as i64 - 1;
    let fraction = &mantissa[point..];
    let sign = if random.chance(30) { "-" } else { "" };
    if fraction.is_empty() {
        format!("{sign}{mantissa}e{exponent}")
    } else {
        format!("{sign}{}.{fraction}E{exponent:+}", &mantissa[..point])
    }
}
