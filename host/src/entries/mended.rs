//! Faults that are found late: a length that does not fit its text shows only where the next entry should begin. Here such a sheet is read once
//! more with the length that fits; if it reads on then, the length is what is wrong.

use super::content::Malformed;
use super::reader::{Entries, Given, Reader};

/// How many lengths are tried, the latest first.
const TRIED: usize = 4;

/// The fault, told where a length is wrong if that explains it.
pub fn explained(reader: &Reader<'_>, fault: Malformed, entries: Entries) -> Malformed {
    let mut tried = reader.lengths().take(TRIED);
    let explains = |given: Given| given.explains(reader, &fault, entries);
    tried.find_map(explains).unwrap_or(fault)
}

impl Given {
    /// The length that fits the line, if the sheet reads on with it.
    fn explains(
        self,
        reader: &Reader<'_>,
        fault: &Malformed,
        entries: Entries,
    ) -> Option<Malformed> {
        let (sheet, limit) = reader.sheet();
        // A sheet that ends before the line does was cut.
        let texts = sheet.get(self.start..)?;
        let end = texts.iter().position(|&byte| byte == b'\n')?;
        let line = texts.get(..end)?;
        let fitting = self.last.checked_add(line.len())?.checked_sub(self.total)?;
        if fitting == self.last {
            return None;
        }
        let (before, after) = sheet.split_at_checked(self.byte)?;
        let after = after.get(self.last.to_string().len()..)?;
        let mended = [before, fitting.to_string().as_bytes(), after].concat();
        let left = |sheet: &[u8], fault: &Malformed| sheet.len().saturating_sub(fault.byte);
        let reads_on = match entries(&mut Reader::new(&mended, limit)) {
            Ok(()) => true,
            Err(later) => left(&mended, &later) < left(sheet, fault),
        };
        reads_on.then(|| Malformed {
            entry: self.entry,
            byte: self.byte,
            expected: self.expected(line.len()),
        })
    }

    fn expected(&self, length: usize) -> String {
        let Self {
            what, total, texts, ..
        } = self;
        match texts {
            1 => format!("{length}, the length of {what} up to the end of its line, not {total}"),
            _ => format!(
                "lengths that add up to {length} (the bytes up to the end of the line), not {total}"
            ),
        }
    }
}
