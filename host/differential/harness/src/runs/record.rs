//! What runs of `compare` found, kept in a file line by line, so that a long series can be broken off and taken up again.

use crate::runs::tally::Tally;
use std::collections::BTreeMap;
use std::fs::{self, OpenOptions};
use std::io::{ErrorKind, Write};

/// One run: how many cases with which answers, and how long it took.
pub struct Run {
    pub tally: Tally,
    pub seconds: f64,
}

/// The finished runs by seed and number of cases.
pub struct Record {
    file: Option<String>,
    runs: BTreeMap<(u64, u64), Run>,
}

impl Record {
    /// What the file holds; without a file nothing is kept.
    pub fn open(file: Option<&str>) -> Result<Self, String> {
        let mut record = Self { file: file.map(str::to_owned), runs: BTreeMap::new() };
        let Some(file) = file else {
            return Ok(record);
        };
        let text = match fs::read_to_string(file) {
            Err(error) if error.kind() == ErrorKind::NotFound => String::new(),
            read => read.map_err(|error| format!("{file} cannot be read: {error}"))?,
        };
        for line in text.lines() {
            let (key, run) = read_line(line).ok_or_else(|| format!("{file} has a line that is not a run: {line}"))?;
            record.runs.insert(key, run);
        }
        Ok(record)
    }

    pub fn has(&self, seed: u64, cases: u64) -> bool {
        self.runs.contains_key(&(seed, cases))
    }

    pub fn add(&mut self, seed: u64, cases: u64, run: Run) -> Result<(), String> {
        if let Some(file) = &self.file {
            let opened = OpenOptions::new().create(true).append(true).open(file);
            let written = opened.and_then(|mut out| writeln!(out, "{seed} {cases} {:.1} {}", run.seconds, run.tally.to_line()));
            written.map_err(|error| format!("{file} cannot be written: {error}"))?;
        }
        self.runs.insert((seed, cases), run);
        Ok(())
    }

    /// All runs together.
    pub fn total(&self) -> Run {
        let mut total = Run { tally: Tally::default(), seconds: 0.0 };
        for run in self.runs.values() {
            total.tally.join(&run.tally);
            total.seconds += run.seconds;
        }
        total
    }

    /// The seeds of all runs, in their order.
    pub fn seeds(&self) -> Vec<u64> {
        self.runs.keys().map(|(seed, _)| *seed).collect()
    }
}

/// Seed, cases, seconds and tally, parted by spaces.
fn read_line(line: &str) -> Option<((u64, u64), Run)> {
    let mut parts = line.splitn(4, ' ');
    let key = (parts.next()?.parse().ok()?, parts.next()?.parse().ok()?);
    let seconds = parts.next()?.parse().ok()?;
    let tally = Tally::of_line(parts.next()?)?;
    Some((key, Run { tally, seconds }))
}
