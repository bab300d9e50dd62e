//! Name tables.

use super::content::{Content, Entry, Malformed};
use super::reader::{Read, Reader};
use super::whole::read;
use crate::settings::{Kind, Name};

/// The entries of a name table. Whether its marks keep the two conditions, [`Table::read`](crate::Table::read) says.
///
/// ```
/// use entity_rules::entries::read_table;
///
/// let mut table = entity_rules::Table::stock().sheet()?;
/// assert_eq!(read_table(&table)?.len(), 8);
///
/// table[22 + 6] = b'2';
/// let error = read_table(&table).unwrap_err();
/// assert_eq!(error.to_string(), "entry 2, byte 28: expected the mark of $entity for precondition, 0 or 1");
/// # Ok::<(), Box<dyn std::error::Error>>(())
/// ```
///
/// # Errors
///
/// If the table is not well formed.
pub fn read_table(sheet: &[u8]) -> Result<Vec<Entry<'_>>, Malformed> {
    read(sheet, Kind::ALL.len(), entries)
}

fn entries(reader: &mut Reader<'_>) -> Read<()> {
    for (number, &kind) in (1..).zip(Kind::ALL) {
        reader.begin("N", &format!("which begins the row of {kind}"))?;
        reader.numeral(number, number, &format!("{number}, the number of {kind}"))?;
        let mut marks = [false; 9];
        for (mark, name) in marks.iter_mut().zip(Name::ALL) {
            *mark = reader.mark(&format!("the mark of ${name} for {kind}, 0 or 1"))?;
        }
        reader.end(Content::Row { kind, marks })?;
    }
    reader.end_of_sheet()
}
