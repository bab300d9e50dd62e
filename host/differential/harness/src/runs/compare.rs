//! `compare`: generated cases, library, model and Rust compared with each other.

use crate::library::lent::Extent;
use crate::runs::agreement::{hold, hold_with, Held};
use crate::runs::record::{Record, Run};
use crate::runs::tally::Tally;
use cases::case::Case;
use cases::edges::edges;
use cases::generate::names::STOCK;
use cases::generate::profiles::{self, PROFILES};
use cases::longest::longest;
use cases::random::Random;
use cases::shrink::shrink;
use std::io::Write;
use std::ops::RangeInclusive;
use std::sync::atomic::{AtomicU64, Ordering};
use std::sync::Arc;
use std::time::{Duration, Instant};

/// Runs the known edges, then so many cases of each seed that the record does not have; an error is a disagreement, told to the reader already.
pub fn compare(cases: u64, seeds: RangeInclusive<u64>, file: Option<&str>) -> Result<(), String> {
    let mut longest_path = 0;
    for case in edges().iter().chain(&longest()) {
        let held = hold_with(case, Extent::All).map_err(|trouble| report(case, &trouble, "a known edge"))?;
        if let Held::Agreed(answer) = held {
            longest_path = longest_path.max(answer.path.len());
        }
    }
    println!("known edges: no disagreement, the longest path {longest_path} bytes");
    let mut record = Record::open(file)?;
    for seed in seeds {
        if !record.has(seed, cases) {
            let run = run(cases, seed)?;
            println!("seed {seed}: {} cases, {:.0} per second, no disagreement", run.tally.cases(), cases as f64 / run.seconds);
            record.add(seed, cases, run)?;
        }
    }
    let total = record.total();
    println!("{}\n{:.0} cases per second", total.tally, total.tally.cases() as f64 / total.seconds);
    if !total.tally.missing().is_empty() {
        println!("never came: {:?}", total.tally.missing());
    }
    println!("no disagreement (seeds {:?})", record.seeds());
    Ok(())
}

/// The cases of one seed.
fn run(cases: u64, seed: u64) -> Result<Run, String> {
    let current = watch(seed);
    let mut tally = Tally::default();
    let began = Instant::now();
    for number in 0..cases {
        current.store(number, Ordering::Relaxed);
        let (profile, case) = profiles::case(&mut Random::of_case(seed, number), &STOCK);
        let held = hold(&case).map_err(|trouble| {
            current.store(IDLE, Ordering::Relaxed);
            report(&case, &trouble, &format!("case {number} of seed {seed}, profile {}", PROFILES[profile].0))
        })?;
        tally.count(&held);
    }
    current.store(IDLE, Ordering::Relaxed);
    Ok(Run { tally, seconds: began.elapsed().as_secs_f64() })
}

/// Prints a disagreement as a small `check.in`, and answers with what is wrong.
pub fn report(case: &Case, trouble: &str, which: &str) -> String {
    println!("{which}: {trouble}");
    let small = shrink(case, |candidate| hold_with(candidate, Extent::All).is_err());
    if let Err(trouble) = hold_with(&small, Extent::All) {
        println!("made smaller: {trouble}");
    }
    if !small.table.is_empty() {
        println!("table: {:?}", String::from_utf8_lossy(&small.table));
    }
    println!("check.in (path buffer {}, scratch {}):", small.path_len, small.scratch_len);
    // A reader that went away is no reason to fail differently.
    let _ = std::io::stdout().write_all(&small.check_in());
    println!();
    "the library, the model and the Rust do not all agree".to_owned()
}

/// No case is running.
const IDLE: u64 = u64::MAX;

/// Ends the run with a message if a single case takes longer than a minute.
fn watch(seed: u64) -> Arc<AtomicU64> {
    let current = Arc::new(AtomicU64::new(IDLE));
    let watched = Arc::clone(&current);
    std::thread::spawn(move || {
        let mut last = IDLE;
        loop {
            let now = watched.load(Ordering::Relaxed);
            if now == last && now != IDLE {
                eprintln!("case {now} of seed {seed} does not come to an end");
                std::process::exit(1);
            }
            last = now;
            std::thread::sleep(Duration::from_secs(60));
        }
    });
    current
}
