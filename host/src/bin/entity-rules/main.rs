//! The command-line tool: `entity-rules check SCHEMA RULE.. --kind KIND --semantics SEMANTICS`, `entity-rules tally SCHEMA BOOK ..` for a whole rule book,
//! which `entity-rules book RULE..` writes and `entity-rules wall SCHEMA BOOK ..` prints for the wall, `entity-rules path SCHEMA PATH..` for keys,
//! `entity-rules open SCHEMA RULE..` for what must be opened in a schema, `entity-rules widens OLD NEW` and `entity-rules upgrade OLD NEW RULE..` for schemas that change, `entity-rules instant TEXT..`, which prints the
//! fields of instants, `entity-rules show FILE..`, which prints sheets as trees, `entity-rules to-sheet FILE` and `entity-rules to-json RULE..` between sheets and JSON, `entity-rules explain NUMBER`, which says what a number of an answer means, and `entity-rules table`, which prints the stock table.

#![forbid(unsafe_code)]
#![deny(
    clippy::arithmetic_side_effects,
    clippy::expect_used,
    clippy::indexing_slicing,
    clippy::panic,
    clippy::unreachable,
    clippy::unwrap_used
)]

mod arguments;
mod blame;
mod checked;
mod commands;
mod constant;
mod files;
mod folders;
mod hint;
mod json;
mod members;
mod near;
mod object;
mod outline;
mod printed;
mod progress;
mod region;
mod report;
mod sarif;
mod source;
mod subject;
mod terminal;

use std::env;
use std::io::{self, ErrorKind, Write};
use std::process::ExitCode;

/// The exit status of bad usage and of whatever keeps a rule or path from being checked.
const REFUSED: u8 = 2;

fn main() -> ExitCode {
    let status = match arguments::parse(env::args_os().skip(1)) {
        Ok(command) => commands::run(&command),
        Err(message) => Ok(misused(&message)),
    };
    ExitCode::from(status.unwrap_or_else(|error| match error.kind() {
        // Whoever read the output has seen enough.
        ErrorKind::BrokenPipe => REFUSED,
        _ => complain(&format!("standard output cannot be written: {error}")),
    }))
}

/// Says something on standard error, most often why nothing was done.
fn complain(message: &str) -> u8 {
    let _ = writeln!(io::stderr(), "entity-rules: {message}");
    REFUSED
}

/// Says what was expected on the command line instead.
fn misused(message: &str) -> u8 {
    complain(&format!("{message}\nTry `entity-rules --help`."))
}
