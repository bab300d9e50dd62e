//! `messages`: a known defect for each sentence, then generated ones; the messages of library, model and Rust compared with each other.

use super::rows::Rows;
use crate::library::lent::Extent;
use crate::runs::agreement::{hold, hold_with, Held};
use crate::runs::compare::report;
use crate::runs::tally::Tally;
use cases::case::Case;
use cases::messages::edges::{edges, longest};
use cases::messages::generate;
use cases::random::Random;
use std::time::Instant;

/// Runs the known edges, then so many generated cases; an error is a disagreement, told to the reader already, or a sentence that never came.
pub fn messages(cases: u64, seed: u64) -> Result<(), String> {
    let edges: Vec<(Case, String)> = edges().into_iter().chain([longest()]).collect();
    let (mut tally, mut rows) = (Tally::default(), Rows::default());
    for (case, known) in &edges {
        let held = hold_with(case, Extent::All).map_err(|trouble| report(case, &trouble, "a known edge"))?;
        let found = count(case, &held, &mut rows);
        if found.as_ref() != Some(known) {
            return Err(report(case, &format!("its message is known as {known:?}, the model has {found:?}"), "a known edge"));
        }
    }
    println!("{} known edges: no disagreement", edges.len());
    let began = Instant::now();
    for number in 0..cases {
        let (profile, case) = generate::case(&mut Random::of_case(seed, number));
        let held = hold(&case).map_err(|trouble| report(&case, &trouble, &format!("case {number} of seed {seed}, {profile}")))?;
        count(&case, &held, &mut rows);
        tally.count(&held);
    }
    println!("{tally}\n{rows}\n{:.0} cases per second", cases as f64 / began.elapsed().as_secs_f64());
    match rows.missing().as_slice() {
        [] => println!("every row of the table of sentences came; no disagreement (seed {seed})"),
        missing => return Err(format!("sentences that never came: {missing:?}")),
    }
    Ok(())
}

/// Counts the message that all agree on, if there is one.
fn count(case: &Case, held: &Held, rows: &mut Rows) -> Option<String> {
    let Held::Agreed(answer) = held else {
        return None;
    };
    let message = model::explain(&case.call()).1?;
    rows.count(case.kind, answer, &message);
    Some(message)
}
