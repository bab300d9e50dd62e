//! `books`: generated rule books, the tally of library and model compared with single checks by library, model and Rust.

use crate::library::lent::Extent;
use crate::runs::books::{hold_all, report};
use cases::books::edges::{edges, large};
use cases::books::generate;
use cases::random::Random;
use model::TallyNumbers;
use std::collections::BTreeMap;
use std::fmt;
use std::time::Instant;

/// How many sheets the largest books have.
const LARGE: usize = 100_000;

/// Runs the known edges, then so many generated books; an error is a disagreement, told to the reader already.
pub fn books(cases: u64, seed: u64) -> Result<(), String> {
    let (edges, large) = (edges(), large(LARGE));
    for case in &edges {
        hold_all(case, Extent::All).map_err(|trouble| report(case, &trouble, "a known edge"))?;
    }
    for case in &large {
        hold_all(case, Extent::All).map_err(|trouble| format!("a book of {LARGE} sheets: {trouble}"))?;
    }
    println!("{} known edges, {} books of {LARGE} sheets: no disagreement", edges.len(), large.len());
    let mut table = Table::default();
    let began = Instant::now();
    for number in 0..cases {
        let (profile, case) = generate::case(&mut Random::of_case(seed, number));
        let which = || format!("book {number} of seed {seed}, profile {profile}");
        let (numbers, kept_out) = hold_all(&case, Extent::Some).map_err(|trouble| report(&case, &trouble, &which()))?;
        table.count(&numbers, kept_out);
    }
    println!("{table}{:.0} sheets per second", table.sums[1] as f64 / began.elapsed().as_secs_f64());
    if !table.missing().is_empty() {
        println!("never came: {:?}", table.missing());
    }
    println!("no disagreement (seed {seed})");
    Ok(())
}

/// How many books had each answer, and what all tallies add up to.
#[derive(Default)]
pub struct Table {
    books: BTreeMap<u64, u64>,
    pub sums: TallyNumbers,
    kept_out: u64,
}

impl Table {
    pub fn count(&mut self, numbers: &TallyNumbers, kept_out: u64) {
        *self.books.entry(numbers[0]).or_default() += 1;
        self.kept_out += kept_out;
        for (sum, number) in self.sums.iter_mut().zip(numbers).skip(1) {
            *sum += number;
        }
    }

    /// The answers that can occur and did not: of books, then of sheets.
    pub fn missing(&self) -> Vec<u64> {
        let books = [0, 1, 2, 3, 34, 37, 38].into_iter().filter(|number| !self.books.contains_key(number));
        let sheets = ROWS.into_iter().filter(|(_, index)| self.sums[*index] == 0).map(|(number, _)| number);
        books.chain(sheets).collect()
    }
}

/// The number of a sheet's answer, and its index in a tally.
const ROWS: [(u64, usize); 15] = [
    (0, 2),
    (4, 3),
    (5, 4),
    (11, 5),
    (12, 6),
    (13, 7),
    (14, 8),
    (15, 9),
    (16, 10),
    (17, 11),
    (18, 12),
    (19, 13),
    (20, 14),
    (21, 15),
    (22, 16),
];

impl fmt::Display for Table {
    fn fmt(&self, out: &mut fmt::Formatter<'_>) -> fmt::Result {
        writeln!(out, "number      books")?;
        for (number, count) in &self.books {
            writeln!(out, "{number:6} {count:10}")?;
        }
        writeln!(out, "number     sheets")?;
        for (number, index) in ROWS {
            writeln!(out, "{number:6} {:10}", self.sums[index])?;
        }
        let [_, read, .., passed] = self.sums;
        writeln!(
            out,
            "{read} sheets in {} books, {passed} checks passed, {} sheets kept out of the Rust",
            self.books.values().sum::<u64>(),
            self.kept_out
        )
    }
}
