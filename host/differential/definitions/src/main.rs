//! Generated definitions under the crate and under entity-runtime's own `validate_definition`. See ../README.md.

mod compare;
mod generate;
#[path = "../../cases/src/random.rs"]
#[allow(dead_code)]
mod random;

use compare::Counts;
use generate::Generator;
use random::Random;
use serde_json::Value;
use std::process::ExitCode;

/// The mill's own definitions, which both must accept whole.
const MILL: [&str; 2] = [include_str!("../../../examples/mill/pattern.json"), include_str!("../../../examples/mill/pattern-wide.json")];

/// How many of a hundred texts have a slip in their shape.
const SLIPS: usize = 30;

fn text(seed: u64, case: u64) -> String {
    let mut random = Random::of_case(seed, case);
    let has_slip = random.chance(SLIPS);
    let mut generator = Generator::new(random);
    let mut definition: Value = generator.definition();
    if has_slip {
        generator.slip(&mut definition);
    }
    definition.to_string()
}

fn mill() -> Result<(), String> {
    for text in MILL {
        let definition: entity_core::EntityDefinition = serde_json::from_str(text).map_err(|error| error.to_string())?;
        definition.validate().map_err(|errors| format!("the mill's definition does not register: {errors}"))?;
        Counts::default().compare(text)?;
    }
    Ok(())
}

fn run(cases: u64, seed: u64) -> Result<Counts, String> {
    mill()?;
    let mut counts = Counts::default();
    for case in 0..cases {
        let text = text(seed, case);
        counts.compare(&text).map_err(|problem| format!("case {case} of seed {seed}: {problem}\n{text}"))?;
    }
    Ok(counts)
}

/// Every number of a defect that a place can have, at each kind of place; and acceptance there.
fn missing(counts: &Counts) -> Vec<String> {
    let of_conditions = [13, 14, 15, 16, 17, 18, 19, 20, 21, 22];
    let of_rules = [11, 12].into_iter().chain(of_conditions).collect::<Vec<u32>>();
    // Under kernel/1, the only semantics without them, `create.outcomes` is passed over: no condition of kind 6 has 15.
    let of_selectors = of_conditions.iter().copied().filter(|number| *number != 15).collect::<Vec<u32>>();
    let mut expected: Vec<(&str, u32, &[u32])> = vec![("key", 1, &[18]), ("condition", 5, &of_conditions), ("condition", 6, &of_selectors)];
    expected.extend([1, 2].map(|kind| ("rule", kind, &of_rules[..])));
    expected.extend([3, 4, 7, 8].map(|kind| ("template", kind, &[18][..])));
    let mut missing = Vec::new();
    for (form, kind, numbers) in expected {
        let met = counts.defects.keys().filter(|key| key.0 == form && key.1 == kind);
        let met: Vec<u32> = met.map(|key| key.2).collect();
        let never = numbers.iter().filter(|number| !met.contains(number));
        missing.extend(never.map(|number| format!("{form} of kind {kind} with {number}")));
        if !counts.accepted.contains_key(&(form.to_owned(), kind)) {
            missing.push(format!("{form} of kind {kind} accepted"));
        }
    }
    missing
}

fn print(counts: &Counts, cases: u64, seed: u64) {
    println!(
        "seed {seed}: {cases} definitions: {} read by both, {} refused by both, {} read by serde alone by a habit of its own",
        counts.read, counts.refused, counts.habits
    );
    println!(
        "{} places checked, {} definitions with one that passes a limit, {} errors of the Rust beyond single checks",
        counts.places, counts.limits, counts.beyond
    );
    for ((form, kind), count) in &counts.accepted {
        println!("{form:9} kind {kind} accepted {count:9}");
    }
    for ((form, kind, number, detail), count) in &counts.defects {
        println!("{form:9} kind {kind} {:>8} {count:9}", format!("{number}.{detail}"));
    }
}

fn option(arguments: &[String], name: &str, usual: u64) -> Result<u64, String> {
    match arguments.iter().position(|argument| argument == name) {
        None => Ok(usual),
        Some(at) => {
            let value = arguments.get(at + 1).ok_or_else(|| format!("{name}: expected a number"))?;
            value.parse().map_err(|_| format!("{name}: expected a number, not {value:?}"))
        }
    }
}

fn main() -> ExitCode {
    let arguments: Vec<String> = std::env::args().skip(1).collect();
    let given = option(&arguments, "--cases", 100_000).and_then(|cases| Ok((cases, option(&arguments, "--seed", 1)?)));
    let (cases, seed) = match given {
        Ok(given) => given,
        Err(problem) => {
            eprintln!("definitions: {problem}\nusage: definitions [--cases N] [--seed S]");
            return ExitCode::from(2);
        }
    };
    match run(cases, seed) {
        Ok(counts) => {
            print(&counts, cases, seed);
            let missing = missing(&counts);
            if missing.is_empty() {
                return ExitCode::SUCCESS;
            }
            eprintln!("definitions: never met: {}", missing.join(", "));
            ExitCode::FAILURE
        }
        Err(problem) => {
            eprintln!("definitions: {problem}");
            ExitCode::FAILURE
        }
    }
}
