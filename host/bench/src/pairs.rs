//! Pairs of schemas, whose comparison is measured: is the second a widening of the first?

use crate::library;
use crate::measure;
use crate::sheets::{typical, wide_schema};

/// Both sheets, and the answer about them: 1 where only open marks differ, 2 for another widening, 3 for none.
struct Pair {
    name: &'static str,
    first: String,
    second: String,
    answer: u32,
}

pub struct Compared {
    pub name: &'static str,
    /// Of both sheets.
    pub bytes: usize,
    /// In nanoseconds.
    pub library: f64,
}

fn pairs() -> [Pair; 4] {
    let usual = String::from_utf8(typical(611).schema).expect("ASCII");
    let opened = usual.replace("F,7,0,", "F,7,1,");
    let last = usual.rfind("F,1,").expect("a string comes last");
    let another_kind = format!("{}F,2,{}", &usual[..last], &usual[last + 4..]);
    [
        Pair { name: "611 entries, all objects opened", first: usual.clone(), second: opened, answer: 1 },
        Pair { name: "611 entries, the last of another kind", first: usual, second: another_kind, answer: 3 },
        Pair { name: "1,024 siblings, the same", first: wide_schema(1_023), second: wide_schema(1_023), answer: 1 },
        Pair { name: "512 siblings, then 1,024", first: wide_schema(511), second: wide_schema(1_023), answer: 2 },
    ]
}

pub fn compared() -> Vec<Compared> {
    let time = |pair: Pair| {
        let call = || library::widens(pair.first.as_bytes(), pair.second.as_bytes()) == pair.answer;
        assert!(call(), "{}: another answer", pair.name);
        Compared { name: pair.name, bytes: pair.first.len() + pair.second.len(), library: measure::time(call) }
    };
    pairs().into_iter().map(time).collect()
}
