//! What several tests need.

#![allow(dead_code, reason = "no test uses all of it")]

pub mod tool;

use entity_rules::{Kind, Refusal, Semantics, check};
use std::io::Write;

const EMPTY_SCHEMA: &[u8] = b"H,0,0,-,0\n";
const NO_REFERENCE: &[u8] = b"T\nV,1,0,\n";

/// Whether the library takes a schema sheet.
pub fn takes_schema(sheet: &[u8]) -> bool {
    check(Kind::Invariant, Semantics::Kernel1, "", sheet, NO_REFERENCE) != Err(Refusal::SchemaSheet)
}

/// Whether the library takes a rule sheet.
pub fn takes_rule(sheet: &[u8]) -> bool {
    check(Kind::Invariant, Semantics::Kernel1, "", EMPTY_SCHEMA, sheet) != Err(Refusal::RuleSheet)
}

/// Says that a test is skipped and why, past what cargo keeps back of a test that passes.
pub fn skipped(test: &str, why: &str) {
    let _ = writeln!(std::io::stderr(), "skipped: {test}: {why}");
}

/// A fixed list of the folder vectors, after its first lines.
pub fn list(name: &str) -> Vec<u8> {
    let file = format!("{}/vectors/{name}", env!("CARGO_MANIFEST_DIR"));
    let list = std::fs::read(file).expect("a list");
    let mut rest = list.as_slice();
    while rest.first() == Some(&b'#') {
        line(&mut rest);
    }
    rest.to_vec()
}

/// The numbers of a line.
pub fn numbers(line: &str) -> Vec<u64> {
    let numbers = line.split(',').map(str::parse);
    numbers.collect::<Result<_, _>>().expect("numbers")
}

/// Takes a line off a list.
pub fn line<'a>(bytes: &mut &'a [u8]) -> &'a str {
    let end = bytes.iter().position(|&byte| byte == b'\n');
    let (line, rest) = bytes.split_at(end.expect("the end of a line"));
    *bytes = &rest[1..];
    std::str::from_utf8(line).expect("a line of text")
}

/// Takes so many bytes off a list.
pub fn take<'a>(bytes: &mut &'a [u8], count: u64) -> &'a [u8] {
    let (taken, rest) = bytes.split_at(usize::try_from(count).expect("a count"));
    *bytes = rest;
    taken
}

/// A small generator of numbers (xorshift), the same on every machine.
pub struct Random(pub u64);

impl Random {
    pub fn next(&mut self) -> u64 {
        self.0 ^= self.0 << 13;
        self.0 ^= self.0 >> 7;
        self.0 ^= self.0 << 17;
        self.0
    }

    pub fn below(&mut self, bound: usize) -> usize {
        (self.next() >> 33) as usize % bound
    }

    pub fn chance(&mut self, one_in: usize) -> bool {
        self.below(one_in) == 0
    }

    pub fn pick<T: Copy>(&mut self, all: &[T]) -> T {
        all[self.below(all.len())]
    }
}
