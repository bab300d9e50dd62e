//! `tally`: how the sheets of a rule book, or of the files of a folder, fare.

use super::whole_book::{Counted, Read, nothing, read_book, refused};
use super::{bar, not_settled};
use crate::arguments::BookRun;
use crate::checked::{Checked, Outcome};
use crate::files::{NoSheet, Rules};
use crate::folders::{RuleFile, Settings, settle};
use crate::json::{fault_members, outcome_members, subject_member};
use crate::object::Object;
use crate::progress::Progress;
use crate::report::{self, Colour, Palette, refused_text};
use crate::subject::Subject;
use entity_rules::{Book, BookSheet, DefectNumber, Kind, Refusal, Tally};
use std::io::{self, IsTerminal, Write};
use std::slice;

/// So many sheets are tallied by one call, between which a bar can show how far it is. The schema is read once in each.
const PART: usize = 256;

/// How many characters the bar of a row has at most.
const WIDTH: usize = 30;

/// Tallies a rule book, or the files of a folder, and prints what comes of it.
pub fn run(asked: &BookRun, out: &mut impl Write) -> io::Result<u8> {
    let files = match settle(slice::from_ref(&asked.book), Some(asked.kind), None) {
        Ok(files) => files,
        Err(why) => return Ok(not_settled("tally", why)),
    };
    let tallied = Tallied::new(asked, files, |sheets| bar(sheets, "sheets"));
    let status = tallied.status();
    if !(asked.output.quiet && status == 0) {
        let palette = Palette::new(io::stdout().is_terminal());
        let text = match asked.output.json {
            true => tallied.line(),
            false => tallied.text(&palette),
        };
        out.write_all(text.as_bytes())?;
    }
    out.flush()?;
    Ok(status)
}

/// A book and what came of it.
struct Tallied<'a> {
    subject: Subject<'a>,
    result: Result<Counted, NoSheet>,
}

impl<'a> Tallied<'a> {
    /// Reads what is asked for, a book or these files of a folder, and tallies it; the bar is for that many sheets.
    fn new<W: Write>(
        asked: &'a BookRun,
        files: Vec<RuleFile<Settings>>,
        bar: impl FnOnce(usize) -> Progress<W>,
    ) -> Self {
        Self {
            subject: Subject::File(&asked.book),
            result: counted(asked, files, bar),
        }
    }

    /// The exit status: that of the worst sheet, or of what keeps the book from being tallied.
    fn status(&self) -> u8 {
        self.result.as_ref().map_or(2, Counted::status)
    }

    /// What is printed for it.
    fn text(self, palette: &Palette) -> String {
        let subject = self.subject;
        match self.result {
            Ok(counted) => table(palette, &report::subject(subject), &counted),
            Err(why) => {
                let outcome = Outcome::from(why);
                report::text(palette, &Checked { subject, outcome })
            }
        }
    }

    /// Its line of JSON.
    fn line(self) -> String {
        let mut object = Object::new();
        subject_member(&mut object, self.subject);
        match self.result {
            Ok(counted) => members(&mut object, &counted),
            Err(why) => outcome_members(&mut object, &why.into()),
        }
        object.line()
    }
}

fn counted<W: Write>(
    asked: &BookRun,
    files: Vec<RuleFile<Settings>>,
    bar: impl FnOnce(usize) -> Progress<W>,
) -> Result<Counted, NoSheet> {
    let read = Read::new(asked)?;
    let books = match files.as_slice() {
        [file] if file.file == asked.book => vec![(asked.kind, read_book(&asked.book)?)],
        _ => books(files)?,
    };
    let parts = books.iter().flat_map(|(kind, book)| {
        let parts = parts(book).into_iter();
        parts.map(|(part, sheets)| (*kind, part, sheets))
    });
    let parts: Vec<(Kind, &[u8], usize)> = parts.collect();
    let mut progress = bar(parts.iter().map(|(_, _, sheets)| sheets).sum());
    let tallied = parts.into_iter().map(|(kind, part, sheets)| {
        let tally = read.check(kind, b"").tally(&read.schema, part);
        progress.steps(sheets);
        tally.map_err(|refusal| refused(&asked.book, part, refusal))
    });
    let tally = tallied.sum::<Result<Tally, NoSheet>>();
    progress.clear();
    Ok(read.counted(tally?))
}

/// The sheets of these files as books, one for each run of sheets of the same kind; or why a file has none.
fn books(files: Vec<RuleFile<Settings>>) -> Result<Vec<(Kind, Vec<u8>)>, NoSheet> {
    let rules = Rules::read_whole(files);
    let mut sheets = Vec::new();
    for (rule, settings) in rules.all() {
        sheets.push((settings.kind, rule.map_err(|(_, why)| why.clone())?.bytes));
    }
    let runs = sheets.chunk_by(|(kind, _), (next, _)| kind == next);
    let book = |run: &[(Kind, &[u8])]| {
        let book: Book = run.iter().map(|(_, sheet)| sheet).collect();
        Some((run.first()?.0, book.bytes().to_vec()))
    };
    Ok(runs.filter_map(book).collect())
}

/// The book in parts that are books, each with the number of its sheets; all of it where it has none or is not a book, for the library to say so.
fn parts(book: &[u8]) -> Vec<(&[u8], usize)> {
    let sheets = Book::read(book).unwrap_or_default();
    if sheets.is_empty() {
        return vec![(book, 0)];
    }
    let mut start = 0;
    let part = |sheets: &[BookSheet<'_>]| {
        let end = |last: &BookSheet<'_>| last.byte.saturating_add(last.bytes.len());
        let end = sheets.last().map_or(start, end);
        let part = book.get(start..end).unwrap_or_default();
        start = end;
        (part, sheets.len())
    };
    sheets.chunks(PART).map(part).collect()
}

/// A row for each number that a sheet can be answered with: its number, its word, how often it came, and the colour of its bar.
fn rows(tally: &Tally) -> Vec<(u32, &'static str, u64, Colour)> {
    let refused = [
        (Refusal::SchemaSheet, tally.schema_refused),
        (Refusal::RuleSheet, tally.rule_refused),
    ];
    let refused = refused.map(|(one, count)| (one.number(), one.word(), count, Colour::Yellow));
    let defects = DefectNumber::ALL
        .iter()
        .map(|one| (one.number(), one.word(), tally.count(*one), Colour::Red));
    let accepted = (0, "accepted", tally.accepted, Colour::Green);
    [accepted]
        .into_iter()
        .chain(refused)
        .chain(defects)
        .collect()
}

/// A tally in words, with a row for each number.
pub fn table(palette: &Palette, subject: &str, counted: &Counted) -> String {
    let Counted { tally, fault } = counted;
    let mut text = match fault {
        Some(_) => refused_text(palette, subject, Refusal::SchemaSheet, fault.as_ref()),
        None => String::new(),
    };
    if tally.read == 0 {
        return nothing(subject);
    }
    text.push_str(&format!("{subject}: tally of {tally}\n"));
    let width = tally.read.to_string().len();
    for (number, word, count, colour) in rows(tally) {
        text.push_str(&format!("  {number:>2}  {word:<12}  {count:>width$}"));
        if count > 0 {
            let (share, bar) = share(count, tally.read);
            text.push_str(&format!("  {share:>6}  {}", palette.paint(colour, &bar)));
        }
        text.push('\n');
    }
    text
}

/// The share of a count in a total, which is not 0: in hundredths, and as a bar that is never empty.
fn share(count: u64, total: u64) -> (String, String) {
    let of = |parts: u128| {
        let parts = u128::from(count).saturating_mul(parts);
        parts.checked_div(total.into()).unwrap_or(0)
    };
    let tenths = of(1_000);
    let (whole, tenth) = (tenths.checked_div(10), tenths.checked_rem(10));
    let share = format!("{}.{}%", whole.unwrap_or(0), tenth.unwrap_or(0));
    let width = u128::try_from(WIDTH).unwrap_or(0);
    let length = usize::try_from(of(width)).unwrap_or(WIDTH);
    (share, "#".repeat(length.max(1)))
}

/// The line of JSON for a tally.
pub fn line(subject: Subject<'_>, counted: &Counted) -> String {
    let mut object = Object::new();
    subject_member(&mut object, subject);
    members(&mut object, counted);
    object.line()
}

fn members(object: &mut Object, counted: &Counted) {
    let Counted { tally, fault } = counted;
    object.text("verdict", "tallied");
    object.number("number", 0);
    object.number("read", tally.read);
    object.number("accepted", tally.accepted);
    object.number("schema_refused", tally.schema_refused);
    object.number("rule_refused", tally.rule_refused);
    let mut found = Object::new();
    for number in DefectNumber::ALL {
        found.number(number.word(), tally.count(*number));
    }
    object.object("found", &found);
    object.number("passed", tally.passed);
    if let Some(fault) = fault {
        object.text("explanation", &fault.told);
        fault_members(object, fault);
    }
}

#[cfg(test)]
mod tests {
    use super::*;

    #[test]
    fn shares_are_rounded_down_and_bars_are_never_empty() {
        for (count, total, share_of, length) in [
            (1, 1, "100.0%", 30),
            (1, 3, "33.3%", 10),
            (2, 3, "66.6%", 20),
            (1, 1_000, "0.1%", 1),
            (1, 100_000, "0.0%", 1),
            (u64::MAX - 1, u64::MAX, "99.9%", 29),
            (u64::MAX, u64::MAX, "100.0%", 30),
        ] {
            assert_eq!(
                share(count, total),
                (share_of.to_owned(), "#".repeat(length))
            );
        }
    }

    #[test]
    fn parts_are_books_and_make_up_the_book() {
        for sheets in [1, 255, 256, 257, 512, 513] {
            let book: Book = (0..sheets).map(|at| "R".repeat(at % 13)).collect();
            let parts = parts(book.bytes());
            let bytes: Vec<&[u8]> = parts.iter().map(|(part, _)| *part).collect();
            assert_eq!(bytes.concat(), book.bytes());
            for (part, sheets) in parts {
                assert_eq!(Book::read(part).map(|sheets| sheets.len()), Ok(sheets));
            }
        }
        assert_eq!(parts(b""), [(&b""[..], 0)]);
        assert_eq!(parts(b"0,1"), [(&b"0,1"[..], 0)]);
    }
}
