//! The figures as tables, and the document that they go into.

use crate::pairs::Compared;
use crate::row::Row;
use crate::{books, json, messages, openings, plot};
use std::fs;
use std::path::Path;

pub struct Acceptance {
    pub name: &'static str,
    pub bytes: usize,
    pub library: f64,
    pub building: f64,
}

pub struct Figures {
    pub rows: Vec<Row>,
    /// Rules of long numbers.
    pub numbers: Vec<Row>,
    pub acceptance: Vec<Acceptance>,
    pub pairs: Vec<Compared>,
    pub openings: Vec<openings::Row>,
    pub messages: Vec<messages::Row>,
    /// Those of which a sheet is made, and those that are refused.
    pub json: (Vec<json::Row>, Vec<json::Refused>),
    /// What a call takes of the stack, in bytes.
    pub stack: Vec<(&'static str, usize)>,
    pub books: Vec<books::Row>,
}

/// A part of the document, and the name of its place.
type Part = (&'static str, String);

/// Rule books.
pub fn book_parts(rows: &[books::Row]) -> [Part; 2] {
    [("books", books::table(rows)), ("book counts", books::counts(rows))]
}

/// The fewest marks to open.
pub fn openings_part(rows: &[openings::Row]) -> Part {
    ("openings", openings::table(rows))
}

/// The messages of defects.
pub fn messages_part(rows: &[messages::Row]) -> Part {
    ("messages", messages::table(rows))
}

/// Rules as JSON.
pub fn json_part(rows: &(Vec<json::Row>, Vec<json::Refused>)) -> Part {
    ("json", json::table(rows))
}

/// Puts each part where the document has a place for it.
pub fn write(document: &str, parts: &[Part]) -> Result<(), String> {
    let mut text = fs::read_to_string(document).map_err(|error| format!("{document}: {error}"))?;
    for (name, part) in parts {
        text = placed(&text, name, part).ok_or_else(|| format!("{document} has no place for {name}"))?;
    }
    fs::write(document, text).map_err(|error| format!("{document}: {error}"))
}

impl Figures {
    pub fn tables(&self) -> String {
        let own = [self.checks(), self.counts(), self.long_numbers(), self.acceptances(), self.comparisons(), self.stacks()];
        let more = [openings_part(&self.openings), messages_part(&self.messages), json_part(&self.json)]
            .into_iter()
            .chain(book_parts(&self.books));
        own.into_iter().chain(more.map(|(_, part)| part)).collect::<Vec<_>>().join("\n")
    }

    /// Puts each table, the processor's name and the plot where the document has a place for them.
    pub fn write(&self, document: &str) -> Result<(), String> {
        let parts = [
            ("processor", processor()),
            ("checks", self.checks()),
            ("counts", self.counts()),
            ("numbers", self.long_numbers()),
            ("acceptance", self.acceptances()),
            ("pairs", self.comparisons()),
            ("stack", self.stacks()),
            openings_part(&self.openings),
            messages_part(&self.messages),
            json_part(&self.json),
        ];
        write(document, &parts)?;
        write(document, &book_parts(&self.books))?;
        let plot = Path::new(document).with_file_name("benchmarks.svg");
        fs::write(plot, plot::svg(&self.rows)).map_err(|error| error.to_string())
    }

    fn checks(&self) -> String {
        let head = "| group | size | bytes | library, µs | Rust pre-built, µs | Rust building and validating, µs | ratio | library, ns a byte |\n|---|---|---|---|---|---|---|---|\n";
        let line = |row: &Row| {
            let [library, validating, building] = row.listed().times;
            format!(
                "| {} | {} {} | {} | {:.1} | {:.1} | {:.1} | {:.2} | {:.2} |\n",
                row.group.name,
                row.group.listed,
                row.group.unit,
                row.bytes,
                library / 1e3,
                validating / 1e3,
                building / 1e3,
                library / building,
                library / row.bytes as f64
            )
        };
        head.to_owned() + &self.rows.iter().map(line).collect::<String>()
    }

    fn counts(&self) -> String {
        let head =
            "| group | library | Rust pre-built | Rust building and validating | ratio | library, a byte | growth |\n|---|---|---|---|---|---|---|\n";
        let line = |row: &Row| {
            let [library, validating, building] =
                row.instructions.unwrap_or_default().map(|count| count.map_or(f64::NAN, |count| count as f64));
            format!(
                "| {} | {library:.0} | {validating:.0} | {building:.0} | {:.2} | {:.1} | {:.2} |\n",
                row.group.name,
                library / building,
                library / row.bytes as f64,
                row.growth()
            )
        };
        head.to_owned() + &self.rows.iter().map(line).collect::<String>()
    }

    fn long_numbers(&self) -> String {
        let head = "| what decides | size | bytes | library, µs | library, ns a number | library, instructions a number | Rust pre-built, µs | Rust building and validating, µs |\n|---|---|---|---|---|---|---|---|\n";
        let line = |row: &Row| {
            let [library, validating, building] = row.listed().times;
            let count = row.group.listed as f64;
            let instructions = row.instructions.and_then(|[library, ..]| library).map_or(f64::NAN, |count| count as f64);
            format!(
                "| {} | {} {} | {} | {:.1} | {:.0} | {:.0} | {:.1} | {:.1} |\n",
                row.group.name,
                row.group.listed,
                row.group.unit,
                row.bytes,
                library / 1e3,
                library / count,
                instructions / count,
                validating / 1e3,
                building / 1e3
            )
        };
        head.to_owned() + &self.numbers.iter().map(line).collect::<String>()
    }

    fn acceptances(&self) -> String {
        let head = "| sheet | bytes | library, ns a byte | Rust building, ns a byte | ratio |\n|---|---|---|---|---|\n";
        let line = |row: &Acceptance| {
            let bytes = row.bytes as f64;
            format!(
                "| {} | {} | {:.2} | {:.2} | {:.2} |\n",
                row.name,
                row.bytes,
                row.library / bytes,
                row.building / bytes,
                row.library / row.building
            )
        };
        head.to_owned() + &self.acceptance.iter().map(line).collect::<String>()
    }

    fn comparisons(&self) -> String {
        let head = "| schemas | bytes of both | library, µs | library, ns a byte |\n|---|---|---|---|\n";
        let line = |row: &Compared| {
            format!("| {} | {} | {:.1} | {:.2} |\n", row.name, row.bytes, row.library / 1e3, row.library / row.bytes as f64)
        };
        head.to_owned() + &self.pairs.iter().map(line).collect::<String>()
    }

    fn stacks(&self) -> String {
        let head = "| sheets | stack, bytes |\n|---|---|\n";
        head.to_owned() + &self.stack.iter().map(|(name, bytes)| format!("| {name} | {bytes} |\n")).collect::<String>()
    }
}

/// The text with a part between the two comments that bear its name.
fn placed(text: &str, name: &str, part: &str) -> Option<String> {
    let (begin, end) = (format!("<!-- {name} -->\n"), format!("<!-- end of {name} -->"));
    let (before, rest) = text.split_once(&begin)?;
    let (_, after) = rest.split_once(&end)?;
    Some(format!("{before}{begin}{part}{end}{after}"))
}

fn processor() -> String {
    let info = fs::read_to_string("/proc/cpuinfo").unwrap_or_default();
    let name = info.lines().find_map(|line| line.strip_prefix("model name")).and_then(|rest| rest.split_once(": "));
    format!("{}\n", name.map_or("processor unknown", |(_, name)| name))
}
