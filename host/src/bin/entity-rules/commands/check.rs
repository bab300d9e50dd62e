//! `check`, `path` and `instant`: rules, key paths and texts one by one.

use super::{Told, print_each, rules};
use crate::arguments::{Arguments, Instants, Output};
use crate::checked::{Checked, Shared};
use crate::json;
use crate::report::{self, Counts, Palette};
use crate::sarif::Log;
use std::io::{self, IsTerminal, Write};

/// Checks every rule or path, and prints what comes of it.
pub fn run(arguments: &Arguments, out: &mut impl Write) -> io::Result<u8> {
    let rules = match rules("check", &arguments.asked) {
        Ok(rules) => rules,
        Err(status) => return Ok(status),
    };
    let shared = Shared::of(arguments);
    let questions = arguments.asked.questions(&rules).into_iter();
    let all = questions.map(|question| Checked::new(arguments, &shared, question));
    print(all, arguments.asked.noun(), arguments.output, out)
}

/// Reads every text as an instant, and prints what comes of it.
pub fn instants(asked: &Instants, out: &mut impl Write) -> io::Result<u8> {
    let all = asked.texts.iter().map(|text| Checked::instant(text));
    print(all, "texts", asked.output, out)
}

/// Prints what comes of every rule, path or text, of which several are called so.
fn print<'a>(
    all: impl ExactSizeIterator<Item = Checked<'a>>,
    noun: &'static str,
    output: Output,
    out: &mut impl Write,
) -> io::Result<u8> {
    let total = all.len();
    let palette = Palette::new(io::stdout().is_terminal());
    let mut counts = Counts::default();
    let mut log = output.sarif.then(Log::default);
    print_each(all, noun, out, |checked| {
        counts.count(&checked.outcome);
        let is_shown = log.is_none() && !(output.quiet && checked.outcome.is_plain());
        if let Some(log) = &mut log {
            log.add(&checked);
        }
        Told {
            text: is_shown.then(|| show(output, &palette, &checked)),
            is_last: !output.json && checked.outcome.blames_what_is_shared(),
        }
    })?;
    let status = counts.status();
    let is_for_people = !output.json && log.is_none();
    if let Some(log) = log {
        out.write_all(log.text().as_bytes())?;
    }
    if is_for_people && total > 1 && !(output.quiet && status == 0) {
        writeln!(out, "{}", counts.summary(total, noun))?;
    }
    out.flush()?;
    Ok(status)
}

fn show(output: Output, palette: &Palette, checked: &Checked) -> String {
    match output.json {
        true => json::line(checked),
        false => report::text(palette, checked),
    }
}
