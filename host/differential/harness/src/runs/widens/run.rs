//! `widens`: generated pairs of schemas, the library compared with the model; and rules over pairs, where the Rust shows what a widening keeps and a breach may break.

use crate::library::lent::Extent;
use crate::readings::answer::line;
use crate::runs::agreement::{self, Held};
use crate::runs::compare;
use crate::runs::widened::promise;
use crate::runs::widens::{hold, report};
use cases::generate::names::STOCK;
use cases::generate::setting::Pair;
use cases::generate::widen::{unwidened, widened, Level};
use cases::random::Random;
use cases::widens::edges::edges;
use cases::widens::generate::{self, CHANGES};
use cases::widens::{Expect, WidensCase};
use model::trees::Schema;
use model::{write_schema, Answer};
use std::collections::BTreeMap;
use std::fmt;
use std::time::Instant;

/// Runs the known edges, then so many generated pairs, each followed by a pair that comes with a rule; an error is a disagreement, told to the reader already.
pub fn widens(cases: u64, seed: u64) -> Result<(), String> {
    let edges = edges();
    for case in &edges {
        hold(case, Extent::All).map_err(|trouble| report(case, &trouble, "a known edge"))?;
    }
    println!("{} known edges: no disagreement", edges.len());
    let (mut table, mut rules) = (Table::default(), Rules::default());
    let began = Instant::now();
    for number in 0..cases {
        let mut random = Random::of_case(seed, number);
        let (profile, case) = generate::case(&mut random);
        let which = || format!("pair {number} of seed {seed}, profile {profile}");
        let numbers = hold(&case, Extent::Some).map_err(|trouble| report(&case, &trouble, &which()))?;
        table.count(&numbers);
        with_rule(&mut random, &mut rules).map_err(|trouble| format!("pair {number} of seed {seed}, with a rule: {trouble}"))?;
    }
    println!("{table}{cases} pairs, {:.0} per second\n{rules}", cases as f64 / began.elapsed().as_secs_f64());
    if !table.missing().is_empty() {
        println!("never came: {:?}", table.missing());
    }
    println!("no disagreement, and no widening broke a promise (seed {seed})");
    Ok(())
}

/// A pair with a rule for one of its schemas: where the library says that it is a widening, library, model and Rust keep the promise.
fn with_rule(random: &mut Random, rules: &mut Rules) -> Result<(), String> {
    let slip = random.between(0, 20);
    let pair = Pair::new(random, &STOCK, slip);
    let (first, second) = changed(random, &pair.schema);
    let case = WidensCase::new(write_schema(&first), write_schema(&second)).expecting(Expect::Anything);
    let numbers = hold(&case, Extent::Some).map_err(|trouble| report(&case, &trouble, "a pair with a rule"))?;
    let calls = [&first, &second].map(|schema| pair.setting.case(schema, &pair.sheet));
    let mut answers = Vec::new();
    for call in &calls {
        match agreement::hold(call).map_err(|trouble| compare::report(call, &trouble, "a rule over a pair"))? {
            Held::Agreed(answer) => answers.push(answer),
            _ => return Ok(()),
        }
    }
    let [before, after] = [&answers[0], &answers[1]];
    if numbers[0] == 0 && numbers[1] < 3 && promise(before, after, numbers[1] == 1).is_none() {
        let told = format!(
            "{} under the first schema, {} under the second, which the library calls a widening: {numbers:?}",
            line(before),
            line(after)
        );
        return Err(compare::report(&calls[1], &told, "a broken promise"));
    }
    rules.count(&numbers, before, after);
    Ok(())
}

/// Two schemas, one of them the one given: a widening of it or the other way round, or one or more changes of any kind apart.
fn changed(random: &mut Random, schema: &Schema) -> (Schema, Schema) {
    match random.below(10) {
        0 | 1 => (unwidened(random, schema, Level::Any), schema.clone()),
        2 => (schema.clone(), widened(random, schema, Level::Any)),
        _ => {
            let mut other = schema.clone();
            for _ in 0..random.pick(&[1, 1, 1, 2, 4]) {
                let change = random.pick(&CHANGES);
                let _ = change(random, &mut other);
            }
            if random.chance(70) {
                (schema.clone(), other)
            } else {
                (other, schema.clone())
            }
        }
    }
}

/// How often each number, answer and reason came; for a refusal the second number is the sheet.
#[derive(Default)]
pub struct Table(BTreeMap<[u32; 3], u64>);

impl Table {
    pub fn count(&mut self, numbers: &[u32; 7]) {
        *self.0.entry([numbers[0], numbers[1], numbers[2]]).or_default() += 1;
    }

    /// The answers that can occur and did not.
    pub fn missing(&self) -> Vec<[u32; 3]> {
        let reasons = (1..=7).map(|reason| [0, 3, reason]);
        let all = [[0, 1, 0], [0, 2, 0], [3, 0, 0], [4, 1, 0], [4, 2, 0]].into_iter().chain(reasons);
        all.filter(|answer| !self.0.contains_key(answer)).collect()
    }
}

impl fmt::Display for Table {
    fn fmt(&self, out: &mut fmt::Formatter<'_>) -> fmt::Result {
        writeln!(out, "number answer reason      pairs")?;
        for ([number, answer, reason], count) in &self.0 {
            writeln!(out, "{number:6} {answer:6} {reason:6} {count:10}")?;
        }
        Ok(())
    }
}

/// How rules fared, by answer and reason: in all, those accepted before, and of these those that are not accepted any more.
#[derive(Default)]
struct Rules(BTreeMap<[u32; 2], [u64; 3]>);

impl Rules {
    fn count(&mut self, numbers: &[u32; 7], before: &Answer, after: &Answer) {
        let row = self.0.entry([numbers[1], numbers[2]]).or_default();
        row[0] += 1;
        row[1] += u64::from(before.number == 0);
        row[2] += u64::from(before.number == 0 && after.number != 0);
    }
}

impl fmt::Display for Rules {
    fn fmt(&self, out: &mut fmt::Formatter<'_>) -> fmt::Result {
        writeln!(out, "answer reason      rules   accepted  no longer")?;
        for ([answer, reason], [all, accepted, lost]) in &self.0 {
            writeln!(out, "{answer:6} {reason:6} {all:10} {accepted:10} {lost:10}")?;
        }
        Ok(())
    }
}
