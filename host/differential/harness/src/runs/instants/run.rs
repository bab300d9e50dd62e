//! `instants`: known texts, then generated ones, by library, model and second reading.

use crate::readings::instants::Fields;
use crate::runs::instants::hold;
use cases::instants::{known, text};
use cases::random::Random;

pub fn instants(cases: u64, seed: u64) -> Result<(), String> {
    let known = known();
    for text in &known {
        hold(text)?;
    }
    let mut tally = Tally::default();
    for number in 0..cases {
        let text = text(&mut Random::of_case(seed, number));
        tally.add(hold(&text).map_err(|trouble| format!("case {number} of seed {seed}: {trouble}"))?);
    }
    let Tally { instants, times, fractions, leaps } = tally;
    println!("{} known texts, {cases} generated ones (seed {seed}): no disagreement", known.len());
    println!(
        "{instants} instants, {times} of them past midnight, {fractions} with nanoseconds, {leaps} at second 60; {} texts that are none",
        cases - instants
    );
    Ok(())
}

/// How many of the generated texts are what.
#[derive(Default)]
struct Tally {
    instants: u64,
    times: u64,
    fractions: u64,
    leaps: u64,
}

impl Tally {
    fn add(&mut self, fields: Option<Fields>) {
        let Some([.., hour, minute, second, nanoseconds]) = fields else {
            return;
        };
        self.instants += 1;
        self.times += u64::from([hour, minute, second, nanoseconds] != [0; 4]);
        self.fractions += u64::from(nanoseconds > 0);
        self.leaps += u64::from(second == 60);
    }
}
