//! A sheet read from its beginning to its end.

use super::content::{Entry, Malformed};
use super::mended::explained;
use super::reader::{Entries, Read, Reader};
use crate::limits::MAX_SHEET_BYTES;

/// Reads a sheet of so many entries at most. One that is too long is at fault where it passes the limit, unless it stops being a sheet before
/// that.
pub fn read(sheet: &[u8], limit: usize, entries: Entries) -> Read<Vec<Entry<'_>>> {
    let mut reader = Reader::new(sheet, limit);
    let whole = entries(&mut reader);
    let start = match sheet.split_at_checked(MAX_SHEET_BYTES) {
        Some((start, [_, ..])) => {
            let mut reader = Reader::new(start, limit);
            entries(&mut reader).map(|()| reader.entries())
        }
        _ => {
            return match whole {
                Ok(()) => Ok(reader.entries()),
                Err(fault) => Err(not_a_sheet(sheet, explained(&reader, fault, entries))),
            };
        }
    };
    match (start, whole) {
        (Err(first), Err(same)) if first == same => Err(first),
        (start, _) => Err(Malformed {
            entry: start.map_or_else(
                |fault| fault.entry,
                |entries| entries.len().saturating_add(1),
            ),
            byte: MAX_SHEET_BYTES,
            expected: "at most 30,000 bytes in the sheet".to_owned(),
        }),
    }
}

/// The fault, with a word on bytes that are something else than a sheet from their beginning.
fn not_a_sheet(sheet: &[u8], fault: Malformed) -> Malformed {
    let other = match sheet.trim_ascii_start() {
        _ if fault.byte > 0 => return fault,
        [b'{' | b'[', ..] => "this looks like JSON; sheets are what the builders write",
        [0xEF, 0xBB, 0xBF, ..] => "a sheet has no byte order mark",
        _ => return fault,
    };
    Malformed {
        expected: format!("{}; {other} (docs/FORMAT.md, \"Sheets\")", fault.expected),
        ..fault
    }
}
