//! The model against the answers that docs/FORMAT.md gives, worked out by hand.

mod books;
mod collections;
mod defects;
mod edges;
mod json;
mod keys;
mod openings;
mod references;
mod refusals;
mod sheets;
mod tables;
mod walls;
mod widenings;

use super::table::Table;
use super::trees::{Schema, Sheet};
use super::*;

/// A closed record with a field of every sort that a walk tells apart, and closed arguments with one text.
const SCHEMA: &str = "H,0,12,0,1\n\
    F,6,0,1,0,1,-,a\n\
    F,7,0,0,1,0,-,\n\
    F,1,0,0,0,1,-,s\n\
    F,12,0,0,0,1,-,b\n\
    F,5,0,0,0,1,-,e\n\
    F,7,0,0,2,1,-,f\n\
    F,2,0,0,0,0,-,\n\
    F,6,0,0,0,1,-,x\n\
    F,8,0,0,0,1,-,j\n\
    F,10,0,1,0,1,-,m\n\
    F,6,0,0,0,0,-,\n\
    F,2,0,0,0,1,-,n\n\
    F,7,1,0,1,1,-,o\n\
    F,1,0,0,0,1,-,p\n\
    F,1,0,0,0,1,-,s\n\
    F,11,0,0,0,1,4,ukind\n\
    F,11,0,0,0,1,5,vvalue\n\
    F,6,0,0,0,1,-,x\n\
    F,1,0,0,0,1,-,g\n";

fn string(text: &str) -> String {
    format!("V,5,{},{text}\n", text.len())
}

fn number(text: &str) -> String {
    format!("V,4,{},{text}\n", text.len())
}

fn operator(op: u8, parts: &[&str]) -> String {
    format!("C,{op},0,\n{}", parts.concat())
}

fn many(op: u8, children: &[&str]) -> String {
    format!("C,{op},{},\n{}", children.len(), children.concat())
}

fn exists(text: &str) -> String {
    operator(5, &[&string(text)])
}

fn for_all(bind: &str, over: &str, body: &str) -> String {
    format!("C,20,{},{bind}\n{over}{body}", bind.len())
}

fn rule(condition: &str) -> String {
    format!("R,-,-,\n{condition}")
}

fn nots(count: usize, inner: &str) -> String {
    format!("{}{inner}", "C,4,0,\n".repeat(count))
}

fn call<'a>(kind: u64, semantics: u64, schema: &'a str, rule: &'a str) -> Call<'a> {
    Call {
        kind,
        semantics,
        label: b"r",
        table: b"",
        schema: schema.as_bytes(),
        rule: rule.as_bytes(),
        path_len: PATH_BYTES,
        scratch_len: SCRATCH_WORDS,
    }
}

/// The answer as the program `rulecheck` prints it.
fn line(answer: &Answer) -> String {
    let numbers = [
        answer.number,
        answer.family,
        answer.detail,
        answer.place,
        answer.over_place,
        answer.passed,
    ];
    let numbers = numbers.map(|number| number.to_string()).join(",");
    format!("{numbers},{}", String::from_utf8_lossy(&answer.path))
}

fn ask(kind: u64, semantics: u64, schema: &str, rule: &str) -> String {
    line(&check(&call(kind, semantics, schema, rule)))
}

/// A condition under service/1 as a precondition, against `SCHEMA`.
fn ask_condition(condition: &str) -> String {
    ask(2, 2, SCHEMA, &rule(condition))
}

#[test]
fn the_worked_example() {
    let schema = "H,0,1,-,0\nF,6,0,1,0,4,-,bars\nF,2,0,0,0,0,-,\n";
    let sheet = "R,-,-,\nC,20,1,b\nV,5,12,$fields.bars\nC,12,0,\nV,5,8,$b.count\nV,4,1,9\n";
    assert_eq!((schema.len(), sheet.len()), (44, 67));
    assert_eq!(
        ask(2, 2, schema, sheet),
        "18,8,9,5,3,9,r.assert.for_all.that.lt[0]"
    );
}
