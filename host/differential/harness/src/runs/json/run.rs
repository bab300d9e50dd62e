//! `json`: known texts, then generated ones, and sheets; by library, model and serde_json.

use super::{hold, hold_sheet, report, report_sheet, Held};
use crate::library::lent::Extent;
use cases::json::edges::edges;
use cases::json::generate::{case, sheet};
use cases::random::Random;
use std::collections::BTreeMap;
use std::fmt;
use std::time::Instant;

/// So deep does serde_json go into the stack where a text nests 3,072 deep.
const STACK_BYTES: usize = 256 << 20;

/// Runs the known texts, then so many generated ones, each with a sheet; an error is a disagreement, told to the reader already.
pub fn json(cases: u64, seed: u64) -> Result<(), String> {
    let thread = std::thread::Builder::new().stack_size(STACK_BYTES).spawn(move || run(cases, seed));
    let thread = thread.map_err(|error| format!("no thread of {STACK_BYTES} bytes of stack: {error}"))?;
    thread.join().map_err(|_| "the comparison panics".to_owned())?
}

fn run(cases: u64, seed: u64) -> Result<(), String> {
    let edges = edges();
    for case in &edges {
        hold(case, Extent::All).map_err(|trouble| report(case, &trouble, "a known text"))?;
    }
    println!("{} known texts: no disagreement", edges.len());
    let (mut tally, began) = (Tally::default(), Instant::now());
    for number in 0..cases {
        let mut random = Random::of_case(seed, number);
        let (profile, case) = case(&mut random);
        let which = || format!("text {number} of seed {seed}, {profile}");
        let held = hold(&case, Extent::Some).map_err(|trouble| report(&case, &trouble, &which()))?;
        tally.count(profile, &held);
        let sheet = sheet(&mut random);
        let held = hold_sheet(&sheet, Extent::Some).map_err(|trouble| report_sheet(&sheet, &trouble, &which()))?;
        *tally.sheets.entry(held.err().unwrap_or(0)).or_default() += 1;
    }
    println!("{tally}{:.0} texts and sheets per second", cases as f64 / began.elapsed().as_secs_f64());
    println!("{cases} texts and {cases} sheets: no disagreement (seed {seed})");
    Ok(())
}

/// How often each answer came, by the profile of the texts, and of the sheets; and how many texts were kept out of the comparison with serde_json.
#[derive(Default)]
pub struct Tally {
    texts: BTreeMap<(&'static str, u32), u64>,
    kept_out: BTreeMap<&'static str, u64>,
    sheets: BTreeMap<u32, u64>,
}

impl Tally {
    fn count(&mut self, profile: &'static str, held: &Held) {
        *self.texts.entry((profile, held.answer.as_ref().err().copied().unwrap_or(0))).or_default() += 1;
        if let Some(habit) = held.kept_out {
            *self.kept_out.entry(habit).or_default() += 1;
        }
    }
}

impl fmt::Display for Tally {
    fn fmt(&self, out: &mut fmt::Formatter<'_>) -> fmt::Result {
        writeln!(out, "texts      number      count")?;
        for ((profile, number), count) in &self.texts {
            writeln!(out, "{profile:10} {number:6} {count:10}")?;
        }
        for (number, count) in &self.sheets {
            writeln!(out, "sheets     {number:6} {count:10}")?;
        }
        for (habit, count) in &self.kept_out {
            writeln!(out, "{count} texts kept out of the comparison with serde_json: {habit}")?;
        }
        Ok(())
    }
}
