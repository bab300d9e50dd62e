//! `moved`: a rule or template that kernel/1 accepts, asked again under each service semantics.

use crate::readings::answer::line;
use crate::readings::nodes::{node, Node};
use crate::readings::plan::plan;
use crate::runs::agreement::{hold, Held};
use crate::runs::compare::report;
use cases::case::Case;
use cases::generate::names::STOCK;
use cases::generate::setting::{Pair, Setting};
use cases::generate::tables;
use cases::random::Random;
use model::number::is_finite;
use model::trees::{Data, Sheet};
use model::{decode_rule, Answer};

/// Runs so many rules and templates that kernel/1 accepts, each answer one that library, model and Rust agree on, under the stock table or each under
/// one of its own; an error has already been printed.
pub fn moved(rules: u64, seed: u64, with_tables: bool) -> Result<(), String> {
    let (mut counted, mut infinite, mut numbers, mut aside) = (0, 0_u64, 0_u64, 0_u64);
    for number in 0.. {
        if counted == rules {
            break;
        }
        let which = format!("case {number} of seed {seed}");
        let mut random = Random::of_case(seed, number);
        let names = if with_tables { tables::names(&mut random) } else { STOCK.clone() };
        let setting = Setting { semantics: 1, ..Setting::new(&mut random, &names) };
        let slip = random.between(0, 10);
        let pair = Pair::under(setting, &mut random, slip);
        let case = pair.case();
        let before = match hold(&case).map_err(|trouble| report(&case, &trouble, &which))? {
            Held::Agreed(before) if before.number == 0 => before,
            _ => {
                aside += 1;
                continue;
            }
        };
        let met = decode_rule(&case.rule).map_or_else(Vec::new, |sheet| met(&sheet));
        for semantics in 2..=4 {
            let case = Case { semantics, ..case.clone() };
            let Held::Agreed(after) = hold(&case).map_err(|trouble| report(&case, &trouble, &which))? else {
                return Err(report(&case, "refused where kernel/1 accepted", &which));
            };
            if !keeps(&before, &after, &met) {
                let trouble = format!("{} under kernel/1, {} under semantics {semantics}", line(&before), line(&after));
                return Err(report(&case, &trouble, &which));
            }
        }
        counted += 1;
        numbers += met.len() as u64;
        infinite += u64::from(met.contains(&false));
    }
    println!(
        "{counted} that kernel/1 accepts, with {numbers} numbers, asked again under three semantics; {infinite} of them hold a number that is not \
         finite, which is the answer; not counted: {aside} that kernel/1 does not accept"
    );
    println!("every other is accepted, with a check more for each of its numbers (seed {seed})");
    Ok(())
}

/// Which of the numbers that the literal pass meets are finite, in its order.
fn met(sheet: &Sheet) -> Vec<bool> {
    let literals = plan(sheet, true).into_iter().filter(|(number, _)| *number == 14);
    let digits = literals.filter_map(|(_, place)| match node(sheet, place) {
        Some(Node::Value(value)) => Some(value),
        _ => None,
    });
    digits.map(|value| matches!(&value.data, Data::Number(text) if is_finite(text))).collect()
}

/// Accepted again, with a check more for each number; or refused for the first number that is not finite.
fn keeps(before: &Answer, after: &Answer, met: &[bool]) -> bool {
    match met.iter().position(|finite| !finite) {
        None => *after == Answer { passed: before.passed + met.len() as u32, ..before.clone() },
        Some(earlier) => after.number == 14 && after.passed == 3 + earlier as u32,
    }
}
