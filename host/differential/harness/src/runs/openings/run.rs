//! `openings`: generated rules for schemas that are too closed for them; the set of library and model, and every set by the Rust.

use crate::library::lent::Extent;
use crate::runs::openings::sets::Asked;
use crate::runs::openings::{hold, report};
use cases::openings::edges::{edges, large};
use cases::openings::{generate, Opened};
use cases::random::Random;
use std::collections::BTreeMap;
use std::fmt;
use std::time::Instant;

/// Runs the known edges, then so many generated cases; an error is a disagreement, told to the reader already.
pub fn openings(cases: u64, seed: u64) -> Result<(), String> {
    let (edges, large) = (edges(), large());
    for case in &edges {
        hold(case, Extent::All).map_err(|trouble| report(case, &trouble, "a known edge"))?;
    }
    for case in &large {
        hold(case, Extent::Some).map_err(|trouble| format!("a schema of hundreds of objects: {trouble}"))?;
    }
    println!("{} known edges, {} schemas of hundreds of objects: no disagreement", edges.len(), large.len());
    let mut table = Table::default();
    let began = Instant::now();
    for number in 0..cases {
        let (profile, case) = generate::case(&mut Random::of_case(seed, number));
        let which = || format!("case {number} of seed {seed}, profile {profile}");
        let (opened, asked) = hold(&case, Extent::Some).map_err(|trouble| report(&case, &trouble, &which()))?;
        table.count(&opened, asked);
    }
    println!("{table}{:.0} per second", cases as f64 / began.elapsed().as_secs_f64());
    if !table.missing().is_empty() {
        println!("never came: {:?}", table.missing());
    }
    println!("no disagreement (seed {seed})");
    Ok(())
}

/// Sets of so many marks and more are counted together.
const MANY: usize = 10;

/// How often each answer came, how many marks the sets have, and what the Rust was asked.
#[derive(Default)]
pub struct Table {
    /// By number, and whether there is a set.
    answers: BTreeMap<[u32; 2], u64>,
    sizes: BTreeMap<usize, u64>,
    with_arguments: u64,
    with_record: u64,
    sets_asked: u64,
    every: u64,
    some: u64,
}

impl Table {
    pub fn count(&mut self, (numbers, set): &Opened, asked: Asked) {
        let [number, is_set, _] = *numbers;
        *self.answers.entry([number, is_set]).or_default() += 1;
        if is_set == 1 {
            *self.sizes.entry(set.len().min(MANY)).or_default() += 1;
        }
        self.with_arguments += u64::from(set.contains(&0));
        self.with_record += u64::from(set.contains(&1));
        match asked {
            Asked::Nothing => {}
            Asked::Every(marks) => {
                self.every += 1;
                self.sets_asked += 1 << marks;
            }
            Asked::Some => self.some += 1,
        }
    }

    /// The answers that can occur and did not.
    pub fn missing(&self) -> Vec<[u32; 2]> {
        let all = [[0, 0], [0, 1], [1, 0], [3, 0], [4, 0], [5, 0], [36, 0], [37, 0], [38, 0]];
        all.into_iter().filter(|answer| !self.answers.contains_key(answer)).collect()
    }
}

impl fmt::Display for Table {
    fn fmt(&self, out: &mut fmt::Formatter<'_>) -> fmt::Result {
        writeln!(out, "number    set      cases")?;
        for ([number, is_set], count) in &self.answers {
            writeln!(out, "{number:6} {:>6} {count:10}", if *is_set == 1 { "yes" } else { "no" })?;
        }
        writeln!(out, " marks       sets")?;
        for (size, count) in &self.sizes {
            let more = if *size == MANY { " or more" } else { "" };
            writeln!(out, "{size:6} {count:10}{more}")?;
        }
        let Self { with_arguments, with_record, sets_asked, every, some, .. } = self;
        writeln!(out, "{with_record} sets have the record's mark, {with_arguments} that of the arguments")?;
        writeln!(out, "the Rust was asked about all {sets_asked} sets of {every} schemas, and about some sets of {some} larger ones")
    }
}
