//! Builds the sheets beside this file and checks the rules: `cargo run --example mill`.
//!
//! With a folder as its argument it writes the sheets there instead: `cargo run --example mill -- examples/mill`.

mod sheets;

use entity_rules::{Check, Kind, Semantics, check_rule, tally, widens};
use std::error::Error;
use std::path::Path;
use std::{env, fs};

fn main() -> Result<(), Box<dyn Error>> {
    match env::args_os().nth(1) {
        Some(folder) => write(folder.as_ref()),
        None => check(),
    }
}

fn check() -> Result<(), Box<dyn Error>> {
    let schema = sheets::pattern().sheet()?;
    for (label, rule) in [
        ("release", sheets::release()),
        ("misspelt", sheets::misspelt()),
    ] {
        let verdict = check_rule(
            Kind::Precondition,
            Semantics::Service1,
            label,
            &schema,
            &rule.sheet()?,
        )?;
        println!("{label}: {verdict}");
    }
    let (rule, table) = (sheets::branch().sheet()?, sheets::own().sheet()?);
    let branch = Check::new(Kind::OutcomeSelector, Semantics::Service1, "branch");
    for (table, lent) in [("the stock table", &[][..]), ("the mill's own", &table)] {
        let checked = branch.table(lent).run(&schema, &rule)?;
        println!("branch, under {table}: {}", checked.verdict);
    }
    let wider = sheets::wider().sheet()?;
    let book = sheets::book()?;
    for (name, schema) in [("as it was", &schema), ("as it has grown", &wider)] {
        let tally = tally(
            Kind::Precondition,
            Semantics::Service1,
            "mill",
            schema,
            &book,
        )?;
        println!("the book, under the pattern {name}: {tally}");
    }
    println!("pattern, as it has grown: {}", widens(&schema, &wider)?);
    println!("pattern, as it was: {}", widens(&wider, &schema)?);
    Ok(())
}

fn write(folder: &Path) -> Result<(), Box<dyn Error>> {
    for (name, sheet) in sheets::files()? {
        fs::write(folder.join(name), sheet)?;
    }
    Ok(())
}
