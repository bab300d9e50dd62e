//! `walls`: generated rule books, printed by library and model.

use crate::library::lent::Extent;
use crate::runs::walls::{hold, report};
use cases::random::Random;
use cases::walls::edges::{edges, large};
use cases::walls::generate;
use std::collections::BTreeMap;
use std::time::Instant;

/// Runs the known edges, then so many generated books; an error is a disagreement, told to the reader already.
pub fn walls(cases: u64, seed: u64) -> Result<(), String> {
    let edges = edges();
    for case in &edges {
        hold(case, Extent::All).map_err(|trouble| report(case, &trouble, "a known edge"))?;
    }
    let (numbers, _) = hold(&large(), Extent::Some).map_err(|trouble| format!("the largest book: {trouble}"))?;
    println!("{} known edges, a book of {} pages: no disagreement", edges.len(), numbers[1]);
    let (mut table, mut counts) = (BTreeMap::<u64, u64>::new(), Lines::default());
    let began = Instant::now();
    for number in 0..cases {
        let (profile, case) = generate::case(&mut Random::of_case(seed, number));
        let which = || format!("book {number} of seed {seed}, profile {profile}");
        let (numbers, pages) = hold(&case, Extent::Some).map_err(|trouble| report(&case, &trouble, &which()))?;
        *table.entry(numbers[0]).or_default() += 1;
        counts.count(&pages);
    }
    println!("number      books");
    for (number, count) in &table {
        println!("{number:6} {count:10}");
    }
    let Lines { pages, results, cut, marked, full } = counts;
    println!("{pages} pages with {results} results: {cut} paths cut, {full} that just fit, {marked} lines with a `?`");
    println!("{:.0} results per second", results as f64 / began.elapsed().as_secs_f64());
    println!("no disagreement (seed {seed})");
    Ok(())
}

/// What the pages show.
#[derive(Default)]
struct Lines {
    pages: u64,
    results: u64,
    cut: u64,
    marked: u64,
    full: u64,
}

impl Lines {
    fn count(&mut self, pages: &[u8]) {
        for (at, line) in pages.chunks(81).enumerate().filter(|(_, line)| line[0] != b'A') {
            match at % 60 {
                0 => self.pages += 1,
                _ if line[4] == b' ' => {}
                _ => {
                    self.results += 1;
                    self.cut += u64::from(line[79] == b'>');
                    self.full += u64::from(line[79] != b'>' && line[79] != b' ');
                    self.marked += u64::from(line[25..80].contains(&b'?'));
                }
            }
        }
    }
}
