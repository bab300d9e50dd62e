//! Random texts of every kind, and random rule sheets.

use super::style::{Style, COMPACT};
use super::{limits, published, shapes, Expect, TextCase};
use crate::generate::build::{all, array, compare, exists, literal, not, number, object, pair, quantifier, text, value as of};
use crate::generate::names::STOCK;
use crate::generate::setting::Pair;
use crate::generate::{damage, profiles};
use crate::random::Random;
use model::trees::{Condition, Data, Operator, Rule, Sheet, Value};
use model::write_rule;

/// A name, how often in a thousand texts it comes, and what makes it.
type Profile = (&'static str, usize, fn(&mut Random) -> TextCase);

pub const PROFILES: [Profile; 11] = [
    ("right", 250, right),
    ("rich", 200, rich),
    ("damaged", 240, damaged),
    ("tokens", 60, tokens),
    ("strings", 70, strings),
    ("numbers", 50, numbers),
    ("shapes", 90, near_misses),
    ("repeated", 22, repeated),
    ("limits", 6, limits::of_sheet),
    ("nested", 4, limits::of_nesting),
    ("published", 8, published_text),
];

/// A text of any profile, and the profile's name.
pub fn case(random: &mut Random) -> (&'static str, TextCase) {
    let mut ticket = random.below(1_000);
    for (name, share, make) in PROFILES {
        if ticket < share {
            return (name, make(random));
        }
        ticket -= share;
    }
    unreachable!("the shares add up to a thousand")
}

/// A sheet to be written as JSON: mostly of a rule, sometimes a template's, or damaged.
pub fn sheet(random: &mut Random) -> Vec<u8> {
    let mut sheet = match random.below(10) {
        0..=4 => write_rule(&Sheet::Rule(small_rule(random))),
        5..=7 => write_rule(&Sheet::Rule(rich_rule(random))),
        _ => profiles::case(random, &STOCK).1.rule,
    };
    if random.chance(15) {
        damage::damage(random, &mut sheet);
    }
    sheet
}

/// The text of a rule, which gives the rule's sheet.
fn of_rule(random: &mut Random, rule: Rule) -> TextCase {
    let style = if random.chance(20) { COMPACT } else { Style::any(random) };
    let text = style.rule(random, &rule);
    TextCase::new(text, Expect::Sheet(write_rule(&Sheet::Rule(rule))))
}

fn right(random: &mut Random) -> TextCase {
    let rule = small_rule(random);
    of_rule(random, rule)
}

fn rich(random: &mut Random) -> TextCase {
    let rule = rich_rule(random);
    of_rule(random, rule)
}

/// A rule such as the other runs check.
fn small_rule(random: &mut Random) -> Rule {
    loop {
        let slip = random.pick(&[0, 5, 20]);
        if let Sheet::Rule(rule) = Pair::new(random, &STOCK, slip).sheet {
            return rule;
        }
    }
}

/// A rule of any operators and values, with texts that JSON must escape.
pub fn rich_rule(random: &mut Random) -> Rule {
    let depth = random.between(1, 4);
    let heading = |random: &mut Random| random.chance(40).then(|| string(random));
    Rule { name: heading(random), message: heading(random), condition: condition(random, depth) }
}

/// Any condition that nests at most so deep.
pub fn condition(random: &mut Random, depth: usize) -> Condition {
    let operator = if depth > 1 { random.between(1, 21) } else { random.pick(&[1, 5, 6, 8, 10, 12, 14, 17, 18, 19]) } as u8;
    let children = |random: &mut Random| (0..random.below(4)).map(|_| condition(random, depth - 1)).collect();
    match operator {
        1 => literal(random.chance(50)),
        2 => all(children(random)),
        3 => Condition { entry: 0, operator: Operator::Any(children(random)) },
        4 => not(condition(random, depth - 1)),
        5 => exists(value(random, 4)),
        18 => compare(random.between(1, 6) as u8, value(random, 3), value(random, 3)),
        19 => Condition { entry: 0, operator: Operator::Truthy(value(random, 3)) },
        20 | 21 => {
            let bind = string(random);
            quantifier(operator, &bind, value(random, 3), condition(random, depth - 1))
        }
        _ => pair(operator, value(random, 3), value(random, 3)),
    }
}

/// Any value that nests at most so deep.
pub fn value(random: &mut Random, depth: usize) -> Value {
    match random.below(if depth > 1 { 9 } else { 6 }) {
        0 => of(Data::Null),
        1 => of(Data::Bool(random.chance(50))),
        2 | 3 => number(&number_text(random)),
        4 | 5 => text(&string(random)),
        6 | 7 => array((0..random.below(4)).map(|_| value(random, depth - 1)).collect()),
        _ => object((0..random.below(4)).map(|_| (string(random), value(random, depth - 1))).collect()),
    }
}

/// Characters at every bound of UTF-8 and of the escapes, and what could be taken for one.
const PIECES: [&str; 40] = [
    "a",
    "b",
    "f",
    "n",
    "r",
    "t",
    "u",
    "/",
    "\"",
    "\\",
    "\0",
    "\u{1}",
    "\u{8}",
    "\t",
    "\n",
    "\u{b}",
    "\u{c}",
    "\r",
    "\u{e}",
    "\u{1f}",
    " ",
    "!",
    "#",
    "[",
    "]",
    "\u{7f}",
    "\u{80}",
    "\u{7ff}",
    "\u{800}",
    "\u{d7ff}",
    "\u{e000}",
    "\u{feff}",
    "\u{ffff}",
    "\u{10000}",
    "\u{1d11e}",
    "\u{10ffff}",
    "\\u0041",
    "é",
    "日",
    "\u{2028}",
];

/// Texts that a shape asks for, where they are only texts.
const WORDS: [&str; 17] = [
    "$serde_json::private::Number",
    "assert",
    "name",
    "message",
    "all",
    "not",
    "eq",
    "in",
    "as",
    "that",
    "left",
    "op",
    "right",
    "compare",
    "$fields.a",
    "starts_with",
    "",
];

fn string(random: &mut Random) -> String {
    if random.chance(30) {
        return random.pick(&WORDS).to_owned();
    }
    (0..random.below(6)).map(|_| random.pick(&PIECES)).collect()
}

const NUMBERS: [&str; 22] = [
    "0",
    "-0",
    "-0.0",
    "0e0",
    "-0E-0",
    "1",
    "-1",
    "10",
    "9007199254740993",
    "18446744073709551615",
    "18446744073709551616",
    "-9223372036854775808",
    "-9223372036854775809",
    "100000000000000000000",
    "0.000001",
    "1.0",
    "1.50",
    "1e5",
    "1E+05",
    "2e-00",
    "1e309",
    "123456789.0123456789e-12345678901234567890",
];

fn digits(random: &mut Random, most: usize) -> String {
    (0..random.between(1, most)).map(|_| char::from(b'0' + random.below(10) as u8)).collect()
}

fn number_text(random: &mut Random) -> String {
    if random.chance(50) {
        return random.pick(&NUMBERS).to_owned();
    }
    let mut text = random.pick(&["", "-"]).to_owned();
    text += &if random.chance(20) { "0".to_owned() } else { format!("{}{}", random.between(1, 9), digits(random, 8)) };
    if random.chance(40) {
        text += &format!(".{}", digits(random, 6));
    }
    if random.chance(40) {
        text += &format!("{}{}{}", random.pick(&["e", "E"]), random.pick(&["", "+", "-"]), digits(random, 3));
    }
    text
}

/// Bytes that matter in JSON, and some that are no UTF-8.
const BYTES: [u8; 48] = *b"{}[]:,\"\\/ \t\n\r\x0b\x0c\x00\x1f\x7f01289-+.eEtfnulabds'x\xc3\xa9\xff\x80\xed\xa0\xf4\x8f#";

/// A few bytes changed, left out, put in, moved or cut.
fn damaged(random: &mut Random) -> TextCase {
    let mut text = if random.chance(50) { right(random) } else { rich(random) }.text;
    for _ in 0..random.between(1, 3) {
        spoil(random, &mut text);
    }
    TextCase::new(text, Expect::Anything)
}

fn spoil(random: &mut Random, text: &mut Vec<u8>) {
    if text.is_empty() {
        return;
    }
    let at = random.below(text.len());
    let end = (at + random.between(1, 12)).min(text.len());
    match random.below(9) {
        0 | 1 => text[at] = random.pick(&BYTES),
        2 => text[at] = random.bits() as u8,
        3 => text.insert(at, random.pick(&BYTES)),
        4 => drop(text.remove(at)),
        5 => text.truncate(at),
        6 => drop(text.drain(at..end)),
        7 => {
            let part = text[at..end].to_vec();
            let into = random.below(text.len());
            text.splice(into..into, part);
        }
        _ => text[at] ^= 1 << random.below(8),
    }
}

/// Tokens in any order, bare or as the value of a rule.
fn tokens(random: &mut Random) -> TextCase {
    const TOKENS: [&str; 26] = [
        "{",
        "}",
        "[",
        "]",
        ":",
        ",",
        "{",
        "}",
        "[",
        "]",
        ":",
        ",",
        "\"a\"",
        "\"\"",
        "\"assert\"",
        "\"not\"",
        "\"all\"",
        "\"eq\"",
        "true",
        "false",
        "null",
        "0",
        "-1.5e3",
        " ",
        "\n",
        "\"b\"",
    ];
    let some: String = (0..random.between(1, 9)).map(|_| random.pick(&TOKENS)).collect();
    let text = match random.below(4) {
        0 => some,
        1 => format!("{{\"assert\":{some}}}"),
        2 => format!("{{\"assert\":true{some}}}"),
        _ => format!("{{\"assert\":{{\"exists\":{some}}}}}"),
    };
    TextCase::new(text, Expect::Anything)
}

/// The places of a string in a rule.
const STRING_PLACES: [(&str, &str); 6] = [
    ("{\"assert\":{\"exists\":", "}}"),
    ("{\"name\":", ",\"assert\":true}"),
    ("{\"assert\":{\"exists\":{", ":1}}}"),
    ("{\"assert\":{\"for_any\":{\"in\":1,\"as\":", ",\"that\":true}}}"),
    ("{\"assert\":{\"compare\":{\"left\":1,\"right\":1,\"op\":", "}}}"),
    ("{\"assert\":{", ":[1,2]}}"),
];

/// Strings of escapes and bytes that are right or nearly so.
fn strings(random: &mut Random) -> TextCase {
    const PARTS: [&[u8]; 40] = [
        b"a",
        b"eq",
        b"\\\"",
        b"\\\\",
        b"\\/",
        b"\\b",
        b"\\f",
        b"\\n",
        b"\\r",
        b"\\t",
        b"\\u0041",
        b"\\u0065\\u0071",
        b"\\u00e9",
        b"\\u00E9",
        b"\\u0000",
        b"\\u001F",
        b"\\uD834\\uDD1E",
        b"\\ud800\\udc00",
        b"\\uDBFF\\uDFFF",
        b"\\uD7FF",
        b"\\uE000",
        b"\\uFFFF",
        b"\xc2\x80",
        b"\xf4\x8f\xbf\xbf",
        b"\x7f",
        // From here on nearly right.
        b"\\uD834",
        b"\\uDD1E",
        b"\\uD834\\n",
        b"\\uD834\\u0041",
        b"\\uD834\\uD834",
        b"\\u00g0",
        b"\\u12",
        b"\\u-001",
        b"\\x41",
        b"\\",
        b"\x1f",
        b"\t",
        b"\xc0\x80",
        b"\xed\xa0\x80",
        b"\xf4\x90\x80\x80",
    ];
    let right = if random.chance(60) { 25 } else { PARTS.len() };
    let parts: Vec<u8> = (0..random.between(1, 4)).flat_map(|_| random.pick(&PARTS[..right]).to_vec()).collect();
    let (before, after) = random.pick(&STRING_PLACES);
    let close: &[u8] = if random.chance(97) { b"\"" } else { b"" };
    TextCase::new([before.as_bytes(), b"\"", &parts, close, after.as_bytes()].concat(), Expect::Anything)
}

/// Numbers that are right or one edit from it.
fn numbers(random: &mut Random) -> TextCase {
    let mut written = number_text(random).into_bytes();
    if random.chance(60) {
        let at = random.below(written.len() + 1);
        let byte = random.pick(b"0019-+.eE x");
        match random.below(3) {
            0 => written.insert(at, byte),
            1 if at < written.len() => written[at] = byte,
            _ => drop(written.pop()),
        }
    }
    let (before, after) = random.pick(&[
        ("{\"assert\":{\"exists\":", "}}"),
        ("{\"assert\":{\"in\":[[1,", "],2]}}"),
        ("{\"assert\":{\"compare\":{\"left\":", ",\"op\":\"lt\",\"right\":[0]}}}"),
        ("{\"assert\":{\"for_all\":{\"in\":{\"a\":", "},\"as\":\"b\",\"that\":{\"eq\":[1,0.000001]}}}}"),
    ]);
    TextCase::new([before.as_bytes(), &written, after.as_bytes()].concat(), Expect::Anything)
}

fn near_misses(random: &mut Random) -> TextCase {
    let style = Style::any(random);
    let tree = shapes::no_rule(random);
    TextCase::new(style.text(random, &tree), Expect::Number(31))
}

fn repeated(random: &mut Random) -> TextCase {
    if random.chance(40) {
        limits::part_repeated(random)
    } else {
        limits::repeated(random)
    }
}

/// An example of the RFC as a value, now and then damaged.
fn published_text(random: &mut Random) -> TextCase {
    let is_json = random.chance(70);
    let sample = if is_json { random.pick(&published::SAMPLES) } else { random.pick(&published::NONE) };
    let mut text = format!("{{\"assert\":{{\"exists\":{sample}}}}}").into_bytes();
    if random.chance(50) {
        spoil(random, &mut text);
        return TextCase::new(text, Expect::Anything);
    }
    TextCase::new(text, if is_json { Expect::Anything } else { Expect::Number(31) })
}
