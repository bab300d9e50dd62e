//! The files that the command line names, and where they are not what they should be.

use crate::folders::RuleFile;
use crate::region::{Aim, Position, Region};
use crate::source::{Shown, Source, is_json};
use crate::subject::Subject;
use entity_rules::entries::{Entry, Malformed, read_rule};
use entity_rules::limits::{MAX_SHEET_BYTES, MAX_TEXT_BYTES};
use entity_rules::{Book, BookError, BookSheet, Refusal};
use std::fs::File;
use std::io::{self, Read};
use std::path::{Path, PathBuf};

/// What a file should hold.
#[derive(Clone, Copy, PartialEq, Eq)]
pub enum Sheet {
    Schema,
    Rule,
    Table,
    Book,
    /// A rule in JSON.
    Json,
    /// A definition in JSON.
    Definition,
    /// A sheet or a book.
    Any,
}

/// A file that cannot be read.
#[derive(Clone)]
pub struct Unreadable {
    pub file: PathBuf,
    pub sheet: Sheet,
    pub reason: String,
}

/// Where a sheet, a book or a rule in JSON stops being one, or a table breaks a condition.
#[derive(Clone)]
pub struct Fault {
    pub file: PathBuf,
    pub at: Position,
    pub part: FaultyPart,
    /// How many bytes of the sheet, book or text come before the fault.
    pub byte: usize,
    /// All of it in words.
    pub told: String,
}

/// What of a file is at fault.
#[derive(Clone)]
pub enum FaultyPart {
    /// The entry of the sheet, or the sheet of the book.
    Place(usize),
    /// The line of JSON.
    Line(Box<Shown>),
}

impl Fault {
    /// The line of JSON.
    pub fn shown(&self) -> Option<&Shown> {
        match &self.part {
            FaultyPart::Place(_) => None,
            FaultyPart::Line(shown) => Some(shown),
        }
    }

    pub fn new(file: &Path, sheet: &[u8], malformed: &Malformed) -> Self {
        Self {
            file: file.to_owned(),
            at: Position::new(sheet, malformed.byte),
            part: FaultyPart::Place(malformed.entry),
            byte: malformed.byte,
            told: malformed.to_string(),
        }
    }

    pub fn of_book(file: &Path, book: &[u8], error: &BookError) -> Self {
        Self {
            file: file.to_owned(),
            at: Position::new(book, error.byte),
            part: FaultyPart::Place(error.sheet),
            byte: error.byte,
            told: error.to_string(),
        }
    }
}

/// Why a file is of no use: it cannot be read, or is refused for what it holds.
#[derive(Clone)]
pub enum NoSheet {
    Unreadable(Unreadable),
    Refused {
        refusal: Refusal,
        fault: Option<Fault>,
    },
}

impl From<Unreadable> for NoSheet {
    fn from(unreadable: Unreadable) -> Self {
        Self::Unreadable(unreadable)
    }
}

/// A sheet of a rule or template, where any will do of another sort: the one of a file, or one of a book.
#[derive(Clone, Copy)]
pub struct Rule<'a> {
    pub subject: Subject<'a>,
    pub file: &'a Path,
    /// The sheet.
    pub bytes: &'a [u8],
    /// Where in the file it begins.
    start: Position,
    /// The text that it was made of.
    source: Option<&'a Source>,
}

impl<'a> Rule<'a> {
    /// The sheet of a file that is not a book.
    pub fn of_file(file: &'a Path, bytes: &'a [u8]) -> Self {
        Self {
            subject: Subject::File(file),
            file,
            bytes,
            start: Position::START,
            source: None,
        }
    }

    /// The sheet of a file that holds JSON.
    pub fn of_json(file: &'a Path, source: &'a Source) -> Self {
        Self {
            source: Some(source),
            ..Self::of_file(file, source.sheet())
        }
    }

    /// The line of the file that the entry of this place is on, which begins at a byte of the sheet.
    pub fn line_of(&self, place: u32, byte: usize) -> usize {
        self.region(place, byte, Aim::Entry).start.line
    }

    /// Where in the file that entry is, or what of it is at fault.
    pub fn region(&self, place: u32, byte: usize, aim: Aim) -> Region {
        let in_text = self.source.and_then(|source| source.region(place, aim));
        in_text.unwrap_or_else(|| Region::of_entry(self.bytes, byte, aim).after(self.start))
    }

    /// The line of JSON with that.
    pub fn shown(&self, place: u32, aim: Aim) -> Option<Shown> {
        self.source?.shown(place, aim)
    }

    /// Where it stops being a rule sheet.
    pub fn fault(&self) -> Option<Fault> {
        self.fault_by(read_rule)
    }

    /// Where it stops being what the reader reads.
    pub fn fault_by(&self, read: SheetReader) -> Option<Fault> {
        let fault = fault(self.file, self.bytes, read)?;
        let told = match self.subject {
            Subject::InBook { serial, .. } => format!("sheet {serial}, {}", fault.told),
            _ => fault.told,
        };
        let at = fault.at.after(self.start);
        Some(Fault { at, told, ..fault })
    }
}

/// A sheet of a rule or template, or the file that has none, and why.
pub type RuleOrNone<'a> = Result<Rule<'a>, (&'a Path, &'a NoSheet)>;

/// What a file holds.
enum Held {
    /// A sheet, or a book that is well formed.
    Bytes(Vec<u8>),
    Json(Source),
}

/// Files of rules with their settings.
pub struct Rules<S>(Vec<(RuleFile<S>, Result<Held, NoSheet>)>);

impl<S> Rules<S> {
    /// As much of each sheet as its check needs, and all of a book or of JSON.
    pub fn read(files: Vec<RuleFile<S>>) -> Self {
        Self::read_by(files, |file| read_sheet(file, Sheet::Rule))
    }

    /// The same of files that may hold other sheets instead.
    pub fn read_any(files: Vec<RuleFile<S>>) -> Self {
        Self::read_by(files, |file| read_sheet(file, Sheet::Any))
    }

    /// All of each file, however long.
    pub fn read_whole(files: Vec<RuleFile<S>>) -> Self {
        Self::read_by(files, |file| read_by(file, Sheet::Rule, all))
    }

    fn read_by(
        files: Vec<RuleFile<S>>,
        read: impl Fn(&Path) -> Result<Vec<u8>, Unreadable>,
    ) -> Self {
        let read = |file: RuleFile<S>| {
            let rules = rules_of(&file.file, read(&file.file));
            (file, rules)
        };
        Self(files.into_iter().map(read).collect())
    }

    /// Every sheet in the order given, or why a file has none; with the settings of its file.
    pub fn all(&self) -> Vec<(RuleOrNone<'_>, &S)> {
        let mut all = Vec::new();
        for (RuleFile { file, settings }, read) in &self.0 {
            match read {
                Ok(Held::Bytes(bytes)) if is_book(bytes) => {
                    let sheets = sheets(file, bytes).into_iter();
                    all.extend(sheets.map(|sheet| (Ok(sheet), settings)));
                }
                Ok(Held::Bytes(bytes)) => all.push((Ok(Rule::of_file(file, bytes)), settings)),
                Ok(Held::Json(source)) => all.push((Ok(Rule::of_json(file, source)), settings)),
                Err(no_sheet) => all.push((Err((&**file, no_sheet)), settings)),
            }
        }
        all
    }
}

/// Whether a file of rules is meant as a book: a sheet begins with a letter, a book with the length of its first sheet.
fn is_book(file: &[u8]) -> bool {
    file.first().is_some_and(u8::is_ascii_digit)
}

/// A sheet, a book that is well formed, or a rule in JSON.
fn rules_of(file: &Path, read: Result<Vec<u8>, Unreadable>) -> Result<Held, NoSheet> {
    let bytes = read?;
    if is_json(file, &bytes) {
        return Source::read(file, bytes).map(Held::Json);
    }
    match Book::read(&bytes) {
        Err(error) if is_book(&bytes) => Err(NoSheet::Refused {
            refusal: error.refusal(),
            fault: Some(Fault::of_book(file, &bytes, &error)),
        }),
        _ => Ok(Held::Bytes(bytes)),
    }
}

/// The sheets of a book.
fn sheets<'a>(file: &'a Path, book: &'a [u8]) -> Vec<Rule<'a>> {
    let (mut start, mut before) = (Position::START, 0);
    let sheets = Book::read(book).unwrap_or_default().into_iter().zip(1..);
    let rule = |(sheet, serial): (BookSheet<'a>, usize)| {
        let between = book.get(before..sheet.byte).unwrap_or_default();
        start = Position::new(between, between.len()).after(start);
        before = sheet.byte;
        Rule {
            subject: Subject::InBook { book: file, serial },
            file,
            bytes: sheet.bytes,
            start,
            source: None,
        }
    };
    sheets.map(rule).collect()
}

/// A file's bytes, or those of standard input for `-`; as much as is needed of a sheet that is too long, and all of a book or of JSON.
pub fn read_sheet(file: &Path, sheet: Sheet) -> Result<Vec<u8>, Unreadable> {
    read_by(file, sheet, |input| match sheet {
        Sheet::Book | Sheet::Json | Sheet::Definition => all(input),
        Sheet::Rule | Sheet::Any => start(input, |bytes| is_book(bytes) || is_json(file, bytes)),
        Sheet::Schema | Sheet::Table => start(input, |_| false),
    })
}

fn read_by(
    file: &Path,
    sheet: Sheet,
    read: impl Fn(&mut dyn Read) -> io::Result<Vec<u8>>,
) -> Result<Vec<u8>, Unreadable> {
    let bytes = match file.as_os_str() == "-" {
        true => read(&mut io::stdin()),
        false => File::open(file).and_then(|mut file| read(&mut file)),
    };
    bytes.map_err(|error| Unreadable {
        file: file.to_owned(),
        sheet,
        reason: error.to_string(),
    })
}

fn all(input: &mut dyn Read) -> io::Result<Vec<u8>> {
    let mut bytes = Vec::new();
    input.read_to_end(&mut bytes)?;
    Ok(bytes)
}

/// The limit of a sheet, and the rest of the entry that passes it, which has two texts at most; then the rest where it is wanted.
fn start(input: &mut dyn Read, wants_rest: impl Fn(&[u8]) -> bool) -> io::Result<Vec<u8>> {
    let most = MAX_TEXT_BYTES
        .saturating_mul(4)
        .saturating_add(MAX_SHEET_BYTES);
    let most = u64::try_from(most).unwrap_or(u64::MAX);
    let mut bytes = Vec::new();
    input.take(most).read_to_end(&mut bytes)?;
    if wants_rest(&bytes) {
        input.read_to_end(&mut bytes)?;
    }
    Ok(bytes)
}

/// What reads the entries of a sheet.
pub type SheetReader = for<'a> fn(&'a [u8]) -> Result<Vec<Entry<'a>>, Malformed>;

/// Where a file's sheet stops being one.
pub fn fault(file: &Path, sheet: &[u8], read: SheetReader) -> Option<Fault> {
    let malformed = read(sheet).err()?;
    Some(Fault::new(file, sheet, &malformed))
}
