//! `keys`: generated paths under both readers and all four semantics, library, model and Rust compared with each other.

use crate::library::lent::Extent;
use crate::runs::keys::{hold, report};
use cases::keys::edges::edges;
use cases::keys::{generate, KeyCase, KERNEL};
use cases::random::Random;
use model::Answer;
use std::collections::BTreeMap;
use std::fmt;
use std::time::Instant;

/// Runs the known edges, then so many generated cases; an error is a disagreement, told to the reader already.
pub fn keys(cases: u64, seed: u64) -> Result<(), String> {
    let edges = edges();
    for case in &edges {
        hold(case, Extent::All).map_err(|trouble| report(case, &trouble, "a known edge"))?;
    }
    println!("{} known edges: no disagreement", edges.len());
    let mut table = Table::default();
    let began = Instant::now();
    for number in 0..cases {
        let (profile, case) = generate::case(&mut Random::of_case(seed, number));
        let which = || format!("case {number} of seed {seed}, profile {profile}");
        let answer = hold(&case, Extent::Some).map_err(|trouble| report(&case, &trouble, &which()))?;
        table.count(&case, &answer);
    }
    println!("{table}{cases} cases, {:.0} per second", cases as f64 / began.elapsed().as_secs_f64());
    if !table.missing().is_empty() {
        println!("never came: {:?}", table.missing());
    }
    println!("no disagreement (seed {seed})");
    Ok(())
}

/// How often each number and detail came: under kernel/1, and under service for the kernel and for a projection. A refusal counts in the
/// first column of the three, where it belongs to none.
#[derive(Default)]
pub struct Table(BTreeMap<(u32, u32), [u64; 3]>);

impl Table {
    pub fn count(&mut self, case: &KeyCase, answer: &Answer) {
        let column = match (answer.number, case.semantics, case.reader) {
            (1..=5, ..) | (_, 1, _) => 0,
            (_, _, KERNEL) => 1,
            _ => 2,
        };
        self.0.entry((answer.number, answer.detail)).or_default()[column] += 1;
    }

    /// The answers that can occur and did not, by their column.
    pub fn missing(&self) -> Vec<(u32, u32, usize)> {
        let kernel = [(0, 0), (18, 1), (18, 2), (18, 3), (18, 10)].map(|(number, detail)| (number, detail, 0));
        let refused = (1..=4).map(|number| (number, 0, 0));
        let of_service = |column| (1..=10).map(move |detail| (18, detail, column)).chain([(0, 0, column)]);
        let all = kernel.into_iter().chain(refused).chain(of_service(1)).chain(of_service(2)).chain([(18, 13, 2)]);
        all.filter(|(number, detail, column)| self.0.get(&(*number, *detail)).is_none_or(|row| row[*column] == 0)).collect()
    }
}

impl fmt::Display for Table {
    fn fmt(&self, out: &mut fmt::Formatter<'_>) -> fmt::Result {
        writeln!(out, "number detail   kernel/1     kernel projection")?;
        for ((number, detail), [one, kernel, projection]) in &self.0 {
            writeln!(out, "{number:6} {detail:6} {one:10} {kernel:10} {projection:10}")?;
        }
        Ok(())
    }
}
