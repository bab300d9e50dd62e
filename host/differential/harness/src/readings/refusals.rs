//! A second reading of the refusals, which the Rust does not know: a list of what is still to come instead of recursion, the text and
//! number rules of `str` and serde_json, a table by the places of its marks.

use cases::books::BookCase;
use cases::case::Case;
use cases::keys::KeyCase;
use cases::limits::{
    MAX_CONDITION_NESTING, MAX_FIELD_NESTING, MAX_LABEL_BYTES, MAX_PATH_BYTES, MAX_RULE_ENTRIES, MAX_SCHEMA_ENTRIES, MAX_SHEET_BYTES,
    MAX_TEXT_BYTES, MAX_VALUE_NESTING, MIN_PATH_BYTES, MIN_SCRATCH_WORDS, REFUSALS, RESULT_BYTES, TABLE_BYTES,
};
use cases::openings::OpeningsCase;
use cases::walls::WallCase;
use cases::widens::WidensCase;
use model::{OPENINGS_BYTES, TALLY_BYTES};

/// The refusal that answers a call, or 0.
pub fn refusal(case: &Case) -> u32 {
    let is_known = (1..=8).contains(&case.kind) && (1..=4).contains(&case.semantics);
    let is_label = case.label.len() <= MAX_LABEL_BYTES && std::str::from_utf8(&case.label).is_ok();
    let is_wide = case.path_len >= MIN_PATH_BYTES && case.scratch_len >= MIN_SCRATCH_WORDS;
    let table = &case.table[..case.table.len().min(TABLE_BYTES)];
    let is_lent = table.is_empty() || is_table(table);
    let is_schema = is_sheet(&case.schema, b"H", MAX_SCHEMA_ENTRIES);
    let is_rule = is_sheet(&case.rule, b"RT", MAX_RULE_ENTRIES);
    let tests = [is_known, is_label, is_wide, is_lent, are_marks_sound(table), is_schema, is_rule];
    first_failing(REFUSALS, &tests)
}

/// What the loading of a table into a buffer of that many bytes answers.
pub fn load_refusal(table: &[u8], buffer: usize) -> u32 {
    let fits = is_table(table) && buffer >= TABLE_BYTES;
    first_failing([37, 38], &[fits, are_marks_sound(table)])
}

/// Whether the bytes are what the marks at their places are written as.
fn is_table(bytes: &[u8]) -> bool {
    let marks = |row: &[u8]| [4, 6, 8, 10, 12, 14, 16, 18, 20].map(|at| if row.get(at) == Some(&b'1') { ",1" } else { ",0" }).concat();
    let rows: Vec<String> = (1..).zip(bytes.chunks(22)).map(|(kind, row)| format!("N,{kind}{}\n", marks(row))).collect();
    rows.len() == 8 && rows.concat().as_bytes() == bytes
}

/// Whether no entry of a table hides one of the first three names, or shows the last where the fourth is hidden.
fn are_marks_sound(table: &[u8]) -> bool {
    let shows = |row: &[u8], at: usize| row.get(at) == Some(&b'1');
    table.chunks(22).all(|row| [4, 6, 8].iter().all(|at| shows(row, *at)) && (shows(row, 10) || !shows(row, 20)))
}

/// The refusal that answers a call for a key, or 0.
pub fn key_refusal(case: &KeyCase) -> u32 {
    let is_known = matches!(case.semantics, 1..=4) && matches!(case.reader, 1 | 2);
    let is_path = case.path.len() <= MAX_PATH_BYTES && std::str::from_utf8(&case.path).is_ok();
    let is_wide = case.result_len >= RESULT_BYTES;
    let is_schema = is_sheet(&case.schema, b"H", MAX_SCHEMA_ENTRIES);
    first_failing([1, 2, 3, 4], &[is_known, is_path, is_wide, is_schema])
}

/// The refusal that answers a call for two schemas, and the sheet that it is about; 0 where there is none.
pub fn widens_refusal(case: &WidensCase) -> [u32; 2] {
    let is_schema = |sheet: &[u8]| is_sheet(sheet, b"H", MAX_SCHEMA_ENTRIES);
    let tests = [case.result_len >= RESULT_BYTES, is_schema(&case.first), is_schema(&case.second)];
    let refusals = [[3, 0], [4, 1], [4, 2]];
    refusals.into_iter().zip(tests).find(|(_, passes)| !passes).map_or([0, 0], |(refusal, _)| refusal)
}

/// The refusal that answers a call for a rule book, or 0.
pub fn book_refusal(case: &BookCase) -> u32 {
    let is_known = (1..=8).contains(&case.kind) && (1..=4).contains(&case.semantics);
    let is_label = case.label.len() <= MAX_LABEL_BYTES && std::str::from_utf8(&case.label).is_ok();
    let is_wide = case.path_len >= MIN_PATH_BYTES && case.result_len >= TALLY_BYTES;
    let table = &case.table[..case.table.len().min(TABLE_BYTES)];
    let is_lent = table.is_empty() || is_table(table);
    let is_book = sheets_in(&case.book).is_some();
    first_failing([1, 2, 3, 34, 37, 38], &[is_known, is_label, is_wide, is_book, is_lent, are_marks_sound(table)])
}

/// The refusal that answers a call for a wall sheet, or 0: those of its book, with 33 after 34. A page has 58 sheets and 4,860 bytes.
pub fn wall_refusal(case: &WallCase) -> u32 {
    let of_book = book_refusal(&BookCase { result_len: if case.book.result_len < 16 { 0 } else { TALLY_BYTES }, ..case.book.clone() });
    let pages = sheets_in(&case.book.book).map_or(0, |sheets| (sheets + 57) / 58);
    match of_book {
        0 | 37 | 38 if pages * 4_860 > case.pages_len => 33,
        other => other,
    }
}

/// The refusal that answers a call for openings, or 0: those of a check without a label, with 36 after 3 for a list of fewer than 1,025 elements of four bytes.
pub fn openings_refusal(case: &OpeningsCase) -> u32 {
    let is_known = (1..=8).contains(&case.kind) && (1..=4).contains(&case.semantics);
    let is_wide = case.path_len >= MIN_PATH_BYTES && case.result_len >= OPENINGS_BYTES;
    let has_room = case.list_len / 4 >= 1_025;
    let table = &case.table[..case.table.len().min(TABLE_BYTES)];
    let is_lent = table.is_empty() || is_table(table);
    let is_schema = is_sheet(&case.schema, b"H", MAX_SCHEMA_ENTRIES);
    let is_rule = is_sheet(&case.rule, b"RT", MAX_RULE_ENTRIES);
    let tests = [is_known, is_wide, has_room, is_lent, are_marks_sound(table), is_schema, is_rule];
    first_failing([1, 3, 36, 37, 38, 4, 5], &tests)
}

/// Whether the bytes are the sheet of a rule.
pub fn is_rule(sheet: &[u8]) -> bool {
    is_sheet(sheet, b"R", MAX_RULE_ENTRIES)
}

/// How many sheets a file has, if it is what those are written as that come after its lengths, however these are spelled and as far as the file goes.
fn sheets_in(file: &[u8]) -> Option<usize> {
    let (mut rest, mut written, mut count) = (file, Vec::new(), 0);
    while let Some(comma) = rest.iter().position(|byte| *byte == b',') {
        let length: u128 = std::str::from_utf8(&rest[..comma]).ok()?.parse().ok()?;
        let (_, behind) = rest.split_at(comma + 1);
        let (sheet, others) = behind.split_at(length.min(behind.len() as u128) as usize);
        written.extend_from_slice(format!("{},", sheet.len()).as_bytes());
        written.extend_from_slice(sheet);
        rest = others;
        count += 1;
    }
    (written == file).then_some(count)
}

/// The refusal of the first test that does not pass, or 0.
fn first_failing<const N: usize>(refusals: [u32; N], tests: &[bool; N]) -> u32 {
    refusals.into_iter().zip(tests).find(|(_, passes)| !**passes).map_or(0, |(refusal, _)| refusal)
}

/// serde_json reads white space around a number, which is not part of its text.
pub fn is_number(text: &str) -> bool {
    let is_bare = !text.bytes().any(|byte| byte.is_ascii_whitespace());
    is_bare && serde_json::from_str::<serde_json::Value>(text).is_ok_and(|value| value.is_number())
}

/// What has to come next. Siblings share a group, which remembers their names.
#[derive(Clone, Copy)]
enum Due {
    Field { nesting: usize, group: usize },
    Element { nesting: usize },
    Condition { nesting: usize },
    Value { nesting: usize },
    Key { nesting: usize, group: usize },
}

struct Reading<'a> {
    rest: &'a [u8],
    entries: usize,
    /// The next one is last.
    due: Vec<Due>,
    groups: Vec<Vec<&'a str>>,
}

/// Whether a sheet that begins with one of the letters, and has so many entries at most, is well formed.
fn is_sheet(sheet: &[u8], letters: &[u8], max_entries: usize) -> bool {
    let mut reading = Reading { rest: sheet, entries: 0, due: Vec::new(), groups: Vec::new() };
    let begins = sheet.len() <= MAX_SHEET_BYTES && sheet.first().is_some_and(|letter| letters.contains(letter));
    begins && reading.all().is_some() && reading.rest.is_empty() && reading.entries <= max_entries
}

impl<'a> Reading<'a> {
    fn all(&mut self) -> Option<()> {
        match self.rest[0] {
            b'H' => self.schema_head()?,
            b'R' => self.rule_head()?,
            _ => self.template_head()?,
        }
        while let Some(due) = self.due.pop() {
            match due {
                Due::Field { nesting, group } => self.field(nesting, Some(group))?,
                Due::Element { nesting } => self.field(nesting, None)?,
                Due::Condition { nesting } => self.condition(nesting)?,
                Due::Value { nesting } => self.value(nesting)?,
                Due::Key { nesting, group } => self.key(nesting, group)?,
            }
        }
        Some(())
    }

    /// The fields of an entry's head: as many as there are, each ended by the byte.
    fn head<const N: usize>(&mut self, letter: u8, ends: [u8; N]) -> Option<[&'a [u8]; N]> {
        self.entries += 1;
        let mut fields = [[].as_slice(); N];
        for (field, end) in fields.iter_mut().zip(ends) {
            let length = self.rest.iter().position(|byte| matches!(byte, b',' | b'\n'))?;
            *field = &self.rest[..length];
            (self.rest[length] == end).then_some(())?;
            self.rest = &self.rest[length + 1..];
        }
        (fields[0] == [letter]).then_some(fields)
    }

    fn text(&mut self, length: usize) -> Option<&'a str> {
        (length <= MAX_TEXT_BYTES && length <= self.rest.len()).then_some(())?;
        let (text, rest) = self.rest.split_at(length);
        self.rest = rest;
        std::str::from_utf8(text).ok()
    }

    fn end(&mut self) -> Option<()> {
        self.rest = self.rest.strip_prefix(b"\n")?;
        Some(())
    }

    fn siblings(&mut self, count: usize, due: impl Fn(usize) -> Due) -> Option<()> {
        // More than the bytes that are left can never come.
        (count <= self.rest.len()).then_some(())?;
        let group = self.groups.len();
        self.groups.push(Vec::new());
        self.due.extend((0..count).map(|_| due(group)));
        Some(())
    }

    /// Whether the name comes after the last one of its group, which it then is.
    fn rises(&mut self, group: usize, name: &'a str) -> Option<()> {
        let last = self.groups[group].last().copied();
        self.groups[group].push(name);
        last.is_none_or(|last| last.as_bytes() < name.as_bytes()).then_some(())
    }

    /// Whether the name is none of its group's, of which it then is one.
    fn is_new(&mut self, group: usize, name: &'a str) -> Option<()> {
        let met = self.groups[group].contains(&name);
        self.groups[group].push(name);
        (!met).then_some(())
    }

    fn schema_head(&mut self) -> Option<()> {
        let [_, open, count, arguments_open, arguments_count] = self.head(b'H', *b",,,,\n")?;
        mark(open)?;
        let count = numeral(count)?;
        let arguments = numeral(arguments_count)?;
        match arguments_open {
            b"-" => (arguments == 0).then_some(())?,
            open => drop(mark(open)?),
        }
        self.siblings(arguments, |group| Due::Field { nesting: 1, group })?;
        self.siblings(count, |group| Due::Field { nesting: 1, group })
    }

    fn field(&mut self, nesting: usize, group: Option<usize>) -> Option<()> {
        let [_, kind, open, items, count, name, tag] = self.head(b'F', *b",,,,,,,")?;
        ((1..=12).contains(&numeral(kind)?) && nesting <= MAX_FIELD_NESTING).then_some(())?;
        mark(open)?;
        let has_items = mark(items)?;
        let count = numeral(count)?;
        let name = self.text(numeral(name)?)?;
        if tag != b"-" {
            self.text(numeral(tag)?)?;
        }
        self.end()?;
        match group {
            Some(group) => self.rises(group, name)?,
            None => name.is_empty().then_some(())?,
        }
        self.siblings(count, |group| Due::Field { nesting: nesting + 1, group })?;
        self.due.extend(has_items.then_some(Due::Element { nesting: nesting + 1 }));
        Some(())
    }

    fn rule_head(&mut self) -> Option<()> {
        let [_, name, message] = self.head(b'R', *b",,,")?;
        for length in [name, message] {
            if length != b"-" {
                self.text(numeral(length)?)?;
            }
        }
        self.due.push(Due::Condition { nesting: 1 });
        self.end()
    }

    fn template_head(&mut self) -> Option<()> {
        self.head(b'T', *b"\n")?;
        self.due.push(Due::Value { nesting: 1 });
        Some(())
    }

    fn condition(&mut self, nesting: usize) -> Option<()> {
        let [_, operator, n] = self.head(b'C', *b",,,")?;
        let (operator, n) = (numeral(operator)?, numeral(n)?);
        let (values, conditions) = match (operator, n) {
            (1, 0..=1) => (0, 0),
            (2 | 3, _) => (0, n),
            (4, 0) => (0, 1),
            (5 | 19, 0) => (1, 0),
            (6..=17, 0) | (18, 1..=6) => (2, 0),
            (20 | 21, _) => (1, 1),
            _ => return None,
        };
        if operator >= 20 {
            self.text(n)?;
        }
        self.end()?;
        (nesting <= MAX_CONDITION_NESTING).then_some(())?;
        self.siblings(conditions, |_| Due::Condition { nesting: nesting + 1 })?;
        self.siblings(values, |_| Due::Value { nesting: 1 })
    }

    fn value(&mut self, nesting: usize) -> Option<()> {
        let [_, kind, n] = self.head(b'V', *b",,,")?;
        let (kind, n) = (numeral(kind)?, numeral(n)?);
        let text = if matches!(kind, 4 | 5) { self.text(n)? } else { "" };
        self.end()?;
        (nesting <= MAX_VALUE_NESTING).then_some(())?;
        match (kind, n) {
            (1..=3, 0) | (5, _) => Some(()),
            (4, _) => is_number(text).then_some(()),
            (6, _) => self.siblings(n, |_| Due::Value { nesting: nesting + 1 }),
            (7, _) => self.siblings(n, |group| Due::Key { nesting: nesting + 1, group }),
            _ => None,
        }
    }

    fn key(&mut self, nesting: usize, group: usize) -> Option<()> {
        let [_, length] = self.head(b'K', *b",,")?;
        let key = self.text(numeral(length)?)?;
        self.end()?;
        self.due.push(Due::Value { nesting });
        self.is_new(group, key)
    }
}

/// A numeral that is written as its value is.
fn numeral(field: &[u8]) -> Option<usize> {
    let text = std::str::from_utf8(field).ok()?;
    let value: usize = text.parse().ok()?;
    (value.to_string() == text).then_some(value)
}

fn mark(field: &[u8]) -> Option<bool> {
    match field {
        b"0" => Some(false),
        b"1" => Some(true),
        _ => None,
    }
}
