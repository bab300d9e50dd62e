//! `widened`: how a rule fares when the schema under it grows, under the library, the model and, where it is seen, the Rust.

use crate::readings::answer::line;
use crate::runs::agreement::{hold, Held};
use crate::runs::changes::{changes, Fared, Table};
use crate::runs::compare::report;
use cases::case::Case;
use cases::generate::names::STOCK;
use cases::generate::setting::Pair;
use cases::generate::tables;
use cases::generate::widen::{narrowed, unwidened, widened as widen, Level};
use cases::random::Random;
use model::trees::Schema;
use model::{is_widening, only_marks_opened, Answer};

/// Runs so many pairs of schemas that differ, each answer one that library, model and Rust agree on, under the stock table or each pair under one of
/// its own; an error has already been printed.
pub fn widened(pairs: u64, seed: u64, with_tables: bool) -> Result<(), String> {
    let mut table = Table::default();
    let (mut counted, mut equal, mut aside) = (0, 0_u64, 0_u64);
    for number in 0.. {
        if counted == pairs {
            break;
        }
        let which = format!("case {number} of seed {seed}");
        let mut random = Random::of_case(seed, number);
        let slip = random.between(0, 30);
        let names = if with_tables { tables::names(&mut random) } else { STOCK.clone() };
        let pair = Pair::new(&mut random, &names, slip);
        let level = if random.chance(40) { Level::Marks } else { Level::Any };
        let (narrow, wide) = schemas(&mut random, &pair.schema, level);
        relation(&mut random, &narrow, &wide, level).map_err(|trouble| format!("{which}: {trouble}"))?;
        let changes = changes(&narrow, &wide);
        let mut cases = [&narrow, &wide].map(|schema| pair.setting.case(schema, &pair.sheet));
        if with_tables {
            cases[1].table = tables::lent_again(&mut random, &names.lent);
        }
        let fared = fare(&cases, only_marks_opened(&narrow, &wide))
            .map_err(|(which_case, problem)| report(&cases[which_case], &problem, &which))?;
        match fared {
            _ if changes.is_empty() => equal += 1,
            None => aside += 1,
            Some(fared) => {
                table.count(&changes, fared);
                counted += 1;
            }
        }
    }
    println!(
        "{table}{counted} pairs that differ; not counted: {equal} of equal schemas, {aside} refused or kept out of the runs with the Rust"
    );
    println!("no widening broke a promise (seed {seed})");
    Ok(())
}

/// Two schemas, the second a widening of the first. The rule or path was made for one of them, mostly for the wider one.
pub fn schemas(random: &mut Random, schema: &Schema, level: Level) -> (Schema, Schema) {
    if random.chance(75) {
        (unwidened(random, schema, level), schema.clone())
    } else {
        (schema.clone(), widen(random, schema, level))
    }
}

/// The relation holds of a widening, of no change, and of two widenings in a row; it does not hold of other changes.
fn relation(random: &mut Random, first: &Schema, second: &Schema, level: Level) -> Result<(), String> {
    let third = widen(random, second, level);
    let told = |holds: bool, what: &str| if holds { Ok(()) } else { Err(format!("{what}: {first:?} to {second:?}")) };
    told(is_widening(first, second), "a widening is not taken for one")?;
    told(is_widening(first, first), "a schema is not taken for a widening of itself")?;
    told(is_widening(first, &third), "two widenings in a row are not taken for one")?;
    told(level == Level::Any || only_marks_opened(first, second), "more than marks is seen to change")?;
    match narrowed(random, first) {
        Some(other) => told(!is_widening(first, &other), &format!("a change is taken for a widening: {other:?}")),
        None => Ok(()),
    }
}

/// Both calls, each answered by all three, and the promise about the two; none where one was refused or kept out. An error says which case
/// it is about, 0 or 1.
fn fare(cases: &[Case; 2], marks_alone: bool) -> Result<Option<Fared>, (usize, String)> {
    let first = hold(&cases[0]).map_err(|problem| (0, problem))?;
    let second = hold(&cases[1]).map_err(|problem| (1, problem))?;
    let (Held::Agreed(first), Held::Agreed(second)) = (first, second) else {
        return Ok(None);
    };
    let broken = || (1, format!("{} under the first schema, {} under the second", line(&first), line(&second)));
    promise(&first, &second, marks_alone).map(Some).ok_or_else(broken)
}

/// How the second answer compares with the first; none if the promise is broken.
pub fn promise(first: &Answer, second: &Answer, marks_alone: bool) -> Option<Fared> {
    if first.number == 0 {
        return (first == second).then_some(Fared::AcceptedAgain);
    }
    if second.passed > first.passed {
        return Some(if second.number == 0 { Fared::DefectThenAccepted } else { Fared::DefectThenLater });
    }
    let without_detail = |answer: &Answer| Answer { detail: 0, ..answer.clone() };
    let same_detail = first.detail == second.detail;
    let kept = second.number != 0 && without_detail(first) == without_detail(second) && (!marks_alone || same_detail);
    kept.then_some(if same_detail { Fared::SameDefect } else { Fared::OtherDetail })
}
