//! How often each answer came.

use crate::runs::agreement::Held;
use std::collections::BTreeMap;
use std::fmt;

/// Number, family, detail.
pub type Answered = (u32, u32, u32);

#[derive(Default)]
pub struct Tally {
    answers: BTreeMap<Answered, u64>,
    kept_out: u64,
    cases: u64,
}

impl Tally {
    pub fn count(&mut self, held: &Held) {
        self.cases += 1;
        match held {
            Held::KeptOut => self.kept_out += 1,
            Held::Refused(number) => *self.answers.entry((*number, 0, 0)).or_default() += 1,
            Held::Agreed(answer) => *self.answers.entry((answer.number, answer.family, answer.detail)).or_default() += 1,
        }
    }

    pub fn add(&mut self, answered: Answered, count: u64) {
        self.cases += count;
        *self.answers.entry(answered).or_default() += count;
    }

    /// Adds what another counted.
    pub fn join(&mut self, other: &Self) {
        self.cases += other.cases;
        self.kept_out += other.kept_out;
        for (answered, count) in &other.answers {
            *self.answers.entry(*answered).or_default() += count;
        }
    }

    /// Kept out, then each answer with its count: `110 0,0,0=51945 ..`.
    pub fn to_line(&self) -> String {
        let answers = self.answers.iter().map(|((number, family, detail), count)| format!(" {number},{family},{detail}={count}"));
        format!("{}{}", self.kept_out, answers.collect::<String>())
    }

    /// What `to_line` wrote; none where it is nothing of the kind.
    pub fn of_line(line: &str) -> Option<Self> {
        let mut parts = line.split(' ');
        let kept_out = parts.next()?.parse().ok()?;
        let mut tally = Self { kept_out, cases: kept_out, ..Self::default() };
        for part in parts {
            let (answered, count) = part.split_once('=')?;
            let numbers: Option<Vec<u32>> = answered.split(',').map(|number| number.parse().ok()).collect();
            let [number, family, detail] = numbers?[..] else {
                return None;
            };
            tally.add((number, family, detail), count.parse().ok()?);
        }
        Some(tally)
    }

    pub fn cases(&self) -> u64 {
        self.cases
    }

    /// The answers with a defect that can occur and did not.
    pub fn missing(&self) -> Vec<Answered> {
        all_answers().into_iter().filter(|answered| !self.answers.contains_key(answered)).collect()
    }
}

/// Every number from 11 on with each family and detail that it can have.
pub fn all_answers() -> Vec<Answered> {
    let fixed = [
        (11, 1, 0),
        (12, 1, 0),
        (13, 4, 0),
        (14, 1, 0),
        (15, 3, 0),
        (16, 1, 0),
        (16, 8, 0),
        (17, 5, 1),
        (17, 5, 2),
        (19, 1, 0),
        (19, 8, 0),
    ];
    let instants = [(20, 1, 1), (20, 1, 2), (20, 8, 1), (20, 8, 2), (21, 6, 0)];
    let references = [1, 2, 8].into_iter().flat_map(|family| (1..=12).map(move |detail| (18, family, detail)));
    let collections = (1..=5).map(|detail| (22, 7, detail));
    fixed.into_iter().chain(instants).chain(references).chain(collections).collect()
}

impl fmt::Display for Tally {
    fn fmt(&self, out: &mut fmt::Formatter<'_>) -> fmt::Result {
        writeln!(out, "number family detail      cases")?;
        for ((number, family, detail), count) in &self.answers {
            writeln!(out, "{number:6} {family:6} {detail:6} {count:10}")?;
        }
        write!(out, "{} cases, {} of them kept out of the runs with the Rust", self.cases, self.kept_out)
    }
}
