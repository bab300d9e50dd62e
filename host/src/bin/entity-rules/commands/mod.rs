//! What each command does: it reads what it is given, asks the library, and prints what comes of it.

mod book;
mod check;
mod convert;
mod definition;
pub mod explain;
mod of_definition;
mod open;
mod show;
mod tally;
mod upgrade;
mod version;
mod versions;
mod wall;
mod whole_book;
mod widens;

use crate::arguments::{self, Asked, Command};
use crate::files::Rules;
use crate::folders::{NotSettled, Settings, settle};
use crate::progress::Progress;
use crate::{REFUSED, complain, misused, terminal};
use entity_rules::Table;
use std::io::{self, IsTerminal, Write};

/// Does what is asked; the answer is the exit status.
pub fn run(command: &Command) -> io::Result<u8> {
    let mut out = io::stdout().lock();
    match command {
        Command::Help => out.write_all(arguments::HELP.as_bytes())?,
        Command::Version => {
            let (text, is_right) = version::text();
            out.write_all(text.as_bytes())?;
            return Ok(if is_right { 0 } else { REFUSED });
        }
        Command::Check(arguments) => return check::run(arguments, &mut out),
        Command::Definition(asked) => return definition::run(asked, &mut out),
        Command::TallyDefinition(asked) => return of_definition::tally(asked, &mut out),
        Command::OpenDefinition(asked) => return of_definition::open(asked, &mut out),
        Command::Tally(asked) => return tally::run(asked, &mut out),
        Command::Wall(asked) => return wall::run(asked, &mut out),
        Command::Book(files) => return book::run(files, &mut out),
        Command::Open(asked) => return open::run(asked, &mut out),
        Command::Widens(pair) => return widens::run(pair, &mut out),
        Command::Upgrade(asked) => return upgrade::run(asked, &mut out),
        Command::Versions(asked) => return versions::run(asked, &mut out),
        Command::Instants(asked) => return check::instants(asked, &mut out),
        Command::Show(files) => return show::run(files, &mut out),
        Command::ToSheet(file) => return convert::to_sheet(file, &mut out),
        Command::ToJson(files) => return convert::to_json(files, &mut out),
        Command::Explain(asked) => out.write_all(explain::text(*asked).as_bytes())?,
        Command::Table => match Table::stock().sheet() {
            Ok(sheet) => out.write_all(&sheet)?,
            Err(error) => return Ok(complain(&error.to_string())),
        },
    }
    Ok(0)
}

/// The files of rules that a command names, read; or the exit status where one has no kind or a folder cannot be read.
fn rules(command: &str, asked: &Asked) -> Result<Rules<Settings>, u8> {
    let files = match asked {
        Asked::Rules {
            files, kind, label, ..
        } => settle(files, *kind, label.as_deref()),
        Asked::Keys { .. } => Ok(Vec::new()),
    };
    let rules = files.map(Rules::read);
    rules.map_err(|why| not_settled(command, why))
}

/// Says why files cannot be checked.
fn not_settled(command: &str, why: NotSettled) -> u8 {
    match why {
        NotSettled::Folder(message) => complain(&message),
        NotSettled::Kind(line) => {
            let expected = arguments::missing_kind(command);
            let line = line.map(|line| format!("; or {line}")).unwrap_or_default();
            misused(&format!("{expected}{line}"))
        }
    }
}

/// A bar for several of what the noun says.
fn bar(total: usize, noun: &'static str) -> Progress<io::Stderr> {
    let is_shown = io::stderr().is_terminal() && !terminal::is_dumb();
    Progress::new(io::stderr(), is_shown, total, noun)
}

/// Prints what is told of each, as far as one that is the last, with a bar meanwhile.
fn print_each<T>(
    all: impl ExactSizeIterator<Item = T>,
    noun: &'static str,
    out: &mut impl Write,
    mut tell: impl FnMut(T) -> Told,
) -> io::Result<()> {
    let mut progress = bar(all.len(), noun);
    for one in all {
        let Told { text, is_last } = tell(one);
        if let Some(text) = text {
            progress.clear();
            out.write_all(text.as_bytes())?;
        }
        progress.step();
        if is_last {
            break;
        }
    }
    progress.clear();
    Ok(())
}

/// What is told of one rule, path or text, and whether it is the last: it is where something is at fault that all of them share.
struct Told {
    text: Option<String>,
    is_last: bool,
}
