//! `vectors`: a fixed list of answers that a program can replay without the Rust.

use crate::readings::answer::printed;
use crate::runs::agreement::{hold, Held};
use crate::runs::compare::report;
use crate::runs::tally::Tally;
use cases::case::Case;
use cases::edges::edges;
use cases::generate::names::STOCK;
use cases::generate::setting::{right, slips};
use cases::generate::{damage, limits, members, planted, widen};
use cases::random::Random;
use model::Answer;
use std::collections::BTreeSet;

/// No case of the list is larger than this, so that it stays quick to read and to replay.
const MAX_CASE_BYTES: usize = 480;

/// After so many tries a generator that still has not made its share makes too few small cases.
const MAX_TRIES: u64 = 100_000;

/// What is made how often: a name for the generator, and the number of cases.
const SHARES: [(Make, u64); 7] = [
    (|random, number| planted::planted(random, &STOCK, planted::TARGETS[number as usize % planted::TARGETS.len()]), 2_400),
    (|random, _| slips(random, &STOCK), 1_000),
    (|random, _| right(random, &STOCK), 600),
    (|random, _| damage::case(random, &STOCK), 600),
    (|random, _| members::case(random, &STOCK), 200),
    (|random, _| widen::case(random, &STOCK), 200),
    (|random, _| limits::settings(random, &STOCK), 100),
];

type Make = fn(&mut Random, u64) -> Case;

/// Writes the list, and what the gate's program prints where all of it comes out as expected; an error before that leaves both files as they were.
pub fn vectors(file: &str, printed: Option<&str>, seed: u64) -> Result<(), String> {
    let mut list = List::default();
    for case in edges() {
        list.take(&case)?;
    }
    for (share, (make, count)) in SHARES.iter().enumerate() {
        list.fill(*make, *count, seed.wrapping_add(share as u64))?;
    }
    if let Some(missing) = list.tally.missing().first() {
        return Err(format!("no case of the list has the answer {missing:?}"));
    }
    let head = head(list.seen.len(), seed);
    let write = |file: &str, bytes: Vec<u8>| std::fs::write(file, bytes).map_err(|error| format!("{file} cannot be written: {error}"));
    write(file, [head.into_bytes(), list.bytes].concat())?;
    if let Some(printed) = printed {
        write(printed, format!("{0} cases, {0} as expected\n", list.seen.len()).into_bytes())?;
    }
    println!("{}\n{} cases written to {file}", list.tally, list.seen.len());
    Ok(())
}

fn head(cases: usize, seed: u64) -> String {
    format!(
        "# {cases} cases and their answers, written by host/differential/run SOURCES vectors --out FILE --seed {seed}; the same seed gives the same bytes.\n\
         # Acceptance, family, detail and path are those of the Rust in SOURCES; number, places and passed count are those of the model beside it,\n\
         # which agrees with the Rust on all that the Rust tells. Refusals 1, 2, 4 and 5 are the model's alone, since the Rust sees no sheets.\n\
         # The library answers the same through its C functions.\n\
         # A case is a line with two byte counts parted by a comma; then as many bytes as the first says, a file check.in; then as many as the\n\
         # second says, what rulecheck prints for it. Lines that begin with # stand here only, before the first case.\n"
    )
}

/// The cases of a list that was written.
pub fn read(file: &str) -> Result<Vec<Case>, String> {
    let bytes = std::fs::read(file).map_err(|error| format!("{file} cannot be read: {error}"))?;
    let mut rest = bytes.as_slice();
    let mut cases = Vec::new();
    while !rest.is_empty() {
        let end = rest.iter().position(|byte| *byte == b'\n').ok_or("a list that does not end in a line")?;
        let (line, after) = (&rest[..end], &rest[end + 1..]);
        rest = after;
        if !line.starts_with(b"#") {
            let counts = String::from_utf8_lossy(line);
            let (input, output) = counts.split_once(',').ok_or_else(|| format!("{counts} is not a pair of byte counts"))?;
            let [input, output] = [input, output].map(|count| count.parse::<usize>().unwrap_or(usize::MAX));
            let whole = input.checked_add(output).filter(|whole| *whole <= rest.len()).ok_or("a list that is cut short")?;
            cases.push(Case::of_check_in(&rest[..input]).ok_or("a case of the list is not a check.in")?);
            rest = &rest[whole..];
        }
    }
    Ok(cases)
}

#[derive(Default)]
struct List {
    seen: BTreeSet<Vec<u8>>,
    tally: Tally,
    bytes: Vec<u8>,
}

impl List {
    /// Adds so many cases that are small, new, and run on the Rust unless they are refused.
    fn fill(&mut self, make: Make, count: u64, seed: u64) -> Result<(), String> {
        let mut taken = 0;
        for number in 0..MAX_TRIES {
            let case = make(&mut Random::of_case(seed, number), taken);
            let is_small = case.check_in().len() <= MAX_CASE_BYTES;
            taken += u64::from(is_small && is_writable(&case) && self.take(&case)?);
            if taken == count {
                return Ok(());
            }
        }
        Err(format!("only {taken} of {count} cases of one sort are small enough"))
    }

    /// Adds the case if it is new and was not kept out; an error is a disagreement.
    fn take(&mut self, case: &Case) -> Result<bool, String> {
        let held = hold(case).map_err(|trouble| report(case, &trouble, "a case for the list"))?;
        let answer = match &held {
            Held::KeptOut => return Ok(false),
            Held::Refused(number) => Answer { number: *number, ..Answer::default() },
            Held::Agreed(answer) => answer.clone(),
        };
        let input = case.check_in();
        if !self.seen.insert(input.clone()) {
            return Ok(false);
        }
        self.tally.count(&held);
        let mut output = printed(&answer);
        output.push(b'\n');
        self.bytes.extend_from_slice(format!("{},{}\n", input.len(), output.len()).as_bytes());
        self.bytes.extend_from_slice(&input);
        self.bytes.extend_from_slice(&output);
        Ok(true)
    }
}

/// A file check.in says nothing of the buffers, and its settings are kept within 32 bits here.
fn is_writable(case: &Case) -> bool {
    let wide = Case::new(case.kind, case.semantics, &case.label, case.schema.clone(), case.rule.clone()).expecting(case.expect);
    *case == wide && case.kind <= u64::from(u32::MAX) && case.semantics <= u64::from(u32::MAX)
}
