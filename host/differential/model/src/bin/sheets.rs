//! Writes the sheets that the program `sheet_samples` is run on, and what it must write, by the model: `sheets FOLDER`.
//!
//! Good sheets, every limit one below, at and one above it, objects whose keys rise, fall or occur twice, numerals past 32 and 64 bits, and small
//! sheets with each byte replaced, left out or doubled, and cut at each length.

use model::{decode_rule, decode_schema};
use std::fmt::Write as _;
use std::{env, fs, path::Path, process::exit};

/// Small sheets in which every form of an entry occurs. Each of their bytes is damaged, so several short ones make less of a list than a long one.
const SCHEMAS: [&str; 2] = [
    "H,0,2,1,1\nF,1,0,0,0,1,-,a\nF,7,1,0,1,1,0,b\nF,11,0,0,0,1,3,dtag\nF,10,0,0,0,1,-,f\n",
    "H,1,2,-,0\nF,6,0,1,1,1,-,c\nF,2,0,0,0,0,-,\nF,8,0,0,0,2,-,ce\nF,9,0,0,0,2,-,cf\n",
];
const RULES: [&str; 3] = [
    "R,4,-,name\nC,8,0,\nV,5,10,$fields.ab\nV,4,4,-1.5\n",
    "R,-,2,no\nC,3,2,\nC,18,3,\nV,2,0,\nV,3,0,\nC,20,1,b\nV,5,4,$b.c\nC,4,0,\nC,1,1,\n",
    "T\nV,7,2,\nK,1,k\nV,1,0,\nK,1,l\nV,6,1,\nV,2,0,\n",
];
const OTHERS: &[u8] = b"0,\n-\x80";

/// The program reads no more.
const MAX_BYTES: usize = 524_288;

/// The cases so far: each a letter (`S` or `R`) and a sheet.
struct Cases(Vec<(u8, Vec<u8>)>);

impl Cases {
    fn schema(&mut self, sheet: impl Into<Vec<u8>>) {
        self.0.push((b'S', sheet.into()));
    }

    fn rule(&mut self, sheet: impl Into<Vec<u8>>) {
        self.0.push((b'R', sheet.into()));
    }

    /// Each byte replaced, left out and doubled, and the sheet cut before it.
    fn damage(&mut self, letter: u8, sheet: &[u8]) {
        for at in 0..sheet.len() {
            for &other in OTHERS.iter().filter(|&&other| other != sheet[at]) {
                let mut damaged = sheet.to_vec();
                damaged[at] = other;
                self.0.push((letter, damaged));
            }
            let mut shorter = sheet.to_vec();
            shorter.remove(at);
            self.0.push((letter, shorter));
            let mut longer = sheet.to_vec();
            longer.insert(at, sheet[at]);
            self.0.push((letter, longer));
            self.0.push((letter, sheet[..at].to_vec()));
        }
    }
}

fn text(n: usize) -> String {
    "t".repeat(n)
}

/// Fields nested so deep, by items and by properties in turn.
fn nested_fields(depth: usize) -> String {
    let mut sheet = String::from("H,0,1,-,0\n");
    for level in 1..=depth {
        let (items, count) = match (level == depth, level % 2) {
            (true, _) => (0, 0),
            (false, 0) => (1, 0),
            (false, _) => (0, 1),
        };
        let named = level == 1 || level % 2 == 0;
        let (length, name) = if named { (1, "n") } else { (0, "") };
        writeln!(sheet, "F,7,0,{items},{count},{length},-,{name}").unwrap();
    }
    sheet
}

fn nested_conditions(depth: usize) -> String {
    format!("R,-,-,\n{}C,1,1,\n", "C,4,0,\n".repeat(depth - 1))
}

fn nested_values(depth: usize) -> String {
    format!("T\n{}V,1,0,\n", "V,6,1,\n".repeat(depth - 1))
}

fn array_of(n: usize) -> String {
    format!("T\nV,6,{n},\n{}", "V,1,0,\n".repeat(n))
}

/// A template of that many bytes: strings of 300 bytes, and one of 100 to 408 that fills up.
fn template_of_bytes(bytes: usize) -> String {
    let entry = |n: usize| format!("V,5,{n},{}\n", text(n));
    let (head, full, least) = ("T\nV,6,##,\n".len(), entry(300).len(), entry(100).len());
    let count = (bytes - head - least) / full;
    let last = bytes - head - count * full - least + 100;
    format!(
        "T\nV,6,{},\n{}{}",
        count + 1,
        entry(300).repeat(count),
        entry(last)
    )
}

/// Fields with names of two letters, rising.
fn fields(count: usize) -> String {
    let letter = |n: usize| char::from(b"ABCDEFGHIJKLMNOPQRSTUVWXYZabcdef"[n]);
    (0..count)
        .map(|i| format!("F,2,0,0,0,2,-,{}{}\n", letter(i / 32), letter(i % 32)))
        .collect()
}

/// So many fields: one in another 64 deep, all but the innermost written so, and then side by side.
fn nested_first(count: usize, outer: &str) -> String {
    format!("{}F,8,0,0,0,0,-,\n{}", outer.repeat(63), fields(count - 64))
}

/// Schemas of that many entries: side by side, one in another, with arguments, with elements.
fn schemas_of_entries(entries: usize) -> [String; 4] {
    let count = entries - 1;
    let (record, arguments, siblings) = (count / 2, count - count / 2, count - 63);
    [
        format!("H,0,{count},-,0\n{}", fields(count)),
        format!(
            "H,0,{siblings},-,0\n{}",
            nested_first(count, "F,7,0,0,1,0,-,\n")
        ),
        format!(
            "H,0,{record},0,{arguments}\n{}{}",
            fields(record),
            fields(arguments)
        ),
        format!(
            "H,0,{siblings},-,0\n{}",
            nested_first(count, "F,6,0,1,0,0,-,\n")
        ),
    ]
}

/// A template of one object with these keys.
fn object_of<K: AsRef<str>>(keys: &[K]) -> String {
    let member = |key: &K| format!("K,{},{}\nV,1,0,\n", key.as_ref().len(), key.as_ref());
    format!(
        "T\nV,7,{},\n{}",
        keys.len(),
        keys.iter().map(member).collect::<String>()
    )
}

/// Keys that fall, come in no order, or occur twice next to each other, apart, or as far apart as can be; few, and as many as a sheet can have.
fn keys(cases: &mut Cases) {
    for few in [
        ["a", "b", "c"],
        ["c", "b", "a"],
        ["b", "a", "c"],
        ["a", "c", "b"],
        ["a", "b", "a"],
        ["a", "a", "b"],
        ["b", "a", "a"],
        ["", "a", ""],
        ["", "a", "aa"],
    ] {
        cases.rule(object_of(&few));
    }
    for count in [20, 40] {
        let falling: Vec<String> = (0..count).rev().map(|n| format!("{n:02}")).collect();
        // 7 has no factor in common with the counts
        let strewn: Vec<String> = (0..count)
            .map(|n| format!("{:02}", n * 7 % count))
            .collect();
        for keys in [falling, strewn] {
            cases.rule(object_of(&keys));
            for (from, to) in [
                (0, count - 1),
                (count / 2, count - 1),
                (0, count / 2),
                (count / 2, count / 2 + 1),
            ] {
                let mut twice = keys.clone();
                twice[to] = keys[from].clone();
                cases.rule(object_of(&twice));
            }
        }
    }
    let letter = |n: usize| char::from(b"ABCDEFGHIJKLMNOPQRSTUVWXYZabcdef"[n]);
    let most: Vec<String> = (0..1_022)
        .rev()
        .map(|n| format!("{}{}", letter(n / 32), letter(n % 32)))
        .collect();
    cases.rule(object_of(&most));
}

fn limits(cases: &mut Cases) {
    for n in 511..=513 {
        cases.schema(format!("H,0,1,-,0\nF,1,0,0,0,{n},-,{}\n", text(n)));
        cases.schema(format!("H,0,1,-,0\nF,11,0,0,0,1,{n},a{}\n", text(n)));
        cases.rule(format!("R,{n},-,{}\nC,1,0,\n", text(n)));
        cases.rule(format!("R,-,{n},{}\nC,1,0,\n", text(n)));
        cases.rule(format!("T\nV,5,{n},{}\n", text(n)));
        cases.rule(format!("T\nV,4,{n},{}\n", "1".repeat(n)));
        cases.rule(format!("T\nV,7,1,\nK,{n},{}\nV,1,0,\n", text(n)));
        cases.rule(format!("R,-,-,\nC,20,{n},{}\nV,1,0,\nC,1,0,\n", text(n)));
    }
    for depth in 63..=65 {
        cases.schema(nested_fields(depth));
        cases.rule(nested_values(depth));
    }
    for depth in 255..=257 {
        cases.rule(nested_conditions(depth));
    }
    for entries in 2047..=2049 {
        cases.rule(array_of(entries - 2));
    }
    for entries in 1024..=1025 {
        for sheet in schemas_of_entries(entries) {
            assert_eq!(
                is_accepted(b'S', sheet.as_bytes()),
                entries <= 1024,
                "its entries alone decide"
            );
            cases.schema(sheet);
        }
    }
    for bytes in 29_999..=30_001 {
        let sheet = template_of_bytes(bytes);
        assert_eq!(sheet.len(), bytes, "the last string fills up");
        assert_eq!(
            is_accepted(b'R', sheet.as_bytes()),
            bytes <= 30_000,
            "its length alone decides"
        );
        cases.rule(sheet);
    }
}

/// Each numeral of a sheet written as a number that would wrap to it, and with a leading zero.
fn numerals(cases: &mut Cases, letter: u8, sheet: &str) {
    let bytes = sheet.as_bytes();
    for at in 0..bytes.len() {
        let starts = bytes[at].is_ascii_digit() && at > 0 && bytes[at - 1] == b',';
        if !starts {
            continue;
        }
        let end = at
            + bytes[at..]
                .iter()
                .take_while(|b| b.is_ascii_digit())
                .count();
        let value: u128 = sheet[at..end].parse().unwrap();
        let others = [
            value + (1 << 32),
            value + (1 << 64),
            value + 256,
            value + 65536,
        ];
        for other in others
            .iter()
            .map(u128::to_string)
            .chain([format!("0{value}"), format!("00{value}")])
        {
            let changed = format!("{}{other}{}", &sheet[..at], &sheet[end..]);
            cases.0.push((letter, changed.into_bytes()));
        }
    }
}

fn all_cases() -> Cases {
    let mut cases = Cases(Vec::new());
    let small = SCHEMAS
        .map(|sheet| (b'S', sheet))
        .into_iter()
        .chain(RULES.map(|sheet| (b'R', sheet)));
    for (letter, sheet) in small.clone() {
        cases.0.push((letter, sheet.into()));
    }
    limits(&mut cases);
    keys(&mut cases);
    for (letter, sheet) in small {
        numerals(&mut cases, letter, sheet);
        cases.damage(letter, sheet.as_bytes());
    }
    cases
}

fn is_accepted(letter: u8, sheet: &[u8]) -> bool {
    if letter == b'S' {
        decode_schema(sheet).is_some()
    } else {
        decode_rule(sheet).is_some()
    }
}

fn main() {
    let arguments: Vec<String> = env::args().skip(1).collect();
    let [folder] = arguments.as_slice() else {
        eprintln!("usage: sheets FOLDER (the folder of the program `sheet_samples`)");
        exit(2);
    };
    let cases = all_cases().0;
    let (mut given, mut expected, mut good) = (Vec::new(), String::new(), 0);
    for (count, (letter, sheet)) in cases.iter().enumerate() {
        given.push(*letter);
        given.extend(format!("{:06}\n", sheet.len()).bytes());
        given.extend(sheet);
        let accepted = is_accepted(*letter, sheet);
        good += usize::from(accepted);
        expected.push(if accepted { '+' } else { '-' });
        if count % 64 == 63 {
            expected.push('\n');
        }
    }
    assert!(given.len() <= MAX_BYTES, "the program reads all of it");
    writeln!(expected, "\naccepted {good} of {}", cases.len()).unwrap();
    let write = |name: &str, bytes: &[u8]| {
        fs::write(Path::new(folder).join(name), bytes).unwrap_or_else(|error| {
            eprintln!("sheets: {name} cannot be written: {error}");
            exit(1);
        });
    };
    write("stdin", &given);
    write("stdout", expected.as_bytes());
    println!(
        "{} sheets, {} bytes, {good} accepted",
        cases.len(),
        given.len()
    );
}
