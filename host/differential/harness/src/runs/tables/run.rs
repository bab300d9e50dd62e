//! `tables`: generated cases under name tables, and tables loaded; library, model and Rust compared with each other.

use crate::library::lent::Extent;
use crate::runs::agreement::{hold, hold_with, Held};
use crate::runs::compare::report;
use crate::runs::tables::{hold_load, report_load};
use crate::runs::tally::Tally;
use cases::case::Case;
use cases::random::Random;
use cases::tables::edges::{edges, loads};
use cases::tables::generate;
use model::check;
use std::collections::BTreeMap;
use std::time::Instant;

/// Runs the known edges, then so many generated cases and as many loads; an error is a disagreement, told to the reader already.
pub fn tables(cases: u64, seed: u64) -> Result<(), String> {
    let (edges, loads) = (edges(), loads());
    for case in &edges {
        hold_with(case, Extent::All).map_err(|trouble| report(case, &trouble, "a known edge"))?;
    }
    for case in &loads {
        hold_load(case).map_err(|trouble| report_load(case, &trouble, "a known load"))?;
    }
    println!("{} known edges, {} known loads: no disagreement", edges.len(), loads.len());
    let (mut tally, mut changed, mut loaded) = (Tally::default(), 0_u64, BTreeMap::<u32, u64>::new());
    let began = Instant::now();
    for number in 0..cases {
        let mut random = Random::of_case(seed, number);
        let (profile, case) = generate::case(&mut random);
        let which = || format!("case {number} of seed {seed}, {profile}");
        let held = hold(&case).map_err(|trouble| report(&case, &trouble, &which()))?;
        changed += u64::from(is_changed(&case, &held));
        tally.count(&held);
        let load = generate::load(&mut random);
        let answer = hold_load(&load).map_err(|trouble| report_load(&load, &trouble, &which()))?;
        *loaded.entry(answer).or_default() += 1;
    }
    println!("{tally}\n{:.0} per second", cases as f64 / began.elapsed().as_secs_f64());
    println!("{changed} of the cases that are not refused have another answer under the stock table");
    for (answer, count) in loaded {
        println!("loads that answer {answer:2}: {count:10}");
    }
    if !tally.missing().is_empty() {
        println!("never came: {:?}", tally.missing());
    }
    println!("no disagreement (seed {seed})");
    Ok(())
}

/// Whether the answer is another than without the table.
fn is_changed(case: &Case, held: &Held) -> bool {
    let Held::Agreed(answer) = held else {
        return false;
    };
    *answer != check(&case.clone().under(Vec::new()).call())
}
