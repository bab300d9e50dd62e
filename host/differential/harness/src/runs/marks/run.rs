//! `marks`: rules with known marks, then generated ones; library, model, second reading and Rust compared with each other.

use crate::library::entry::Entry;
use crate::library::lent::Extent;
use crate::runs::agreement::{hold_with, Held};
use crate::runs::compare::report;
use crate::runs::tally::Tally;
use cases::marks::edges::edges;
use cases::marks::generate;
use cases::random::Random;
use std::time::Instant;

/// Runs the known edges, then so many generated cases; an error is a disagreement, told to the reader already.
pub fn marks(cases: u64, seed: u64) -> Result<(), String> {
    let edges = edges();
    for (case, marks) in &edges {
        let held = hold_with(case, Extent::All).map_err(|trouble| report(case, &trouble, "a known edge"))?;
        let found = of(case, &held);
        if found != *marks {
            return Err(report(case, &format!("its marks are known as {marks:?}, the model has {found:?}"), "a known edge"));
        }
    }
    println!("{} known edges: no disagreement", edges.len());
    let (mut tally, mut found) = (Tally::default(), Found::default());
    let began = Instant::now();
    for number in 0..cases {
        let (profile, case) = generate::case(&mut Random::of_case(seed, number));
        let held = hold_with(&case, Extent::Marks)
            .map_err(|trouble| report(&case, &trouble, &format!("case {number} of seed {seed}, {profile}")))?;
        found.count(&of(&case, &held));
        tally.count(&held);
    }
    let Found { rules, marks, holding, most } = found;
    println!("{tally}\n{:.0} per second", cases as f64 / began.elapsed().as_secs_f64());
    println!("{marks} constant conditions in {rules} rules, {holding} of them true, {most} at most in one rule");
    println!("no disagreement (seed {seed})");
    Ok(())
}

/// The marks that all agree on.
fn of(case: &cases::case::Case, held: &Held) -> Vec<u32> {
    match held {
        Held::Agreed(answer) => Entry::Check.marks(case, answer),
        _ => Vec::new(),
    }
}

#[derive(Default)]
struct Found {
    rules: u64,
    marks: usize,
    holding: usize,
    most: usize,
}

impl Found {
    fn count(&mut self, marks: &[u32]) {
        self.rules += u64::from(!marks.is_empty());
        self.marks += marks.len();
        self.holding += marks.iter().filter(|mark| **mark % 2 == 1).count();
        self.most = self.most.max(marks.len());
    }
}
