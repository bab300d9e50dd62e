//! Which names a generated rule may read: those of the stock table, or those of another that its case is lent.

use model::table::Table;

/// In the order of a table's marks.
pub const ALL_NAMES: [&str; 9] = ["id", "entity", "version", "fields", "state", "to_state", "from_state", "args", "old_fields"];

/// The names in the order in which they are picked from.
const PICKED: [&str; 9] = ["id", "entity", "version", "fields", "state", "from_state", "to_state", "args", "old_fields"];

/// The marks of each kind, from kind 1 on, and the bytes that a case is lent.
#[derive(Clone, Debug)]
pub struct Names {
    rows: [[bool; 9]; 8],
    pub lent: Vec<u8>,
}

/// A case is lent nothing, and the names are those of docs/FORMAT.md.
pub static STOCK: Names = Names {
    rows: [
        row(b"xxxxx...."),
        row(b"xxxx.xxxx"),
        row(b"xxxxxx..."),
        row(b"xxxxxxxxx"),
        row(b"xxxx..xx."),
        row(b"xxx....x."),
        row(b"xxx.xx.x."),
        row(b"xxxxxx.x."),
    ],
    lent: Vec::new(),
};

const fn row(marks: &[u8; 9]) -> [bool; 9] {
    let mut row = [false; 9];
    let mut at = 0;
    while at < row.len() {
        row[at] = marks[at] == b'x';
        at += 1;
    }
    row
}

impl Names {
    /// The names of a table, which a case is lent as these bytes.
    pub fn of(table: &Table, lent: Vec<u8>) -> Self {
        Self { rows: table.0, lent }
    }

    pub fn may_read(&self, kind: u64, name: &str) -> bool {
        ALL_NAMES.iter().zip(self.rows[kind as usize - 1]).any(|(known, mark)| *known == name && mark)
    }

    /// All names that the kind may read.
    pub fn readable(&self, kind: u64) -> Vec<&'static str> {
        PICKED.into_iter().filter(|name| self.may_read(kind, name)).collect()
    }

    /// The kinds that may read the record or the arguments.
    pub fn rooted(&self) -> Vec<u64> {
        (1..=8).filter(|kind| self.may_read(*kind, "fields") || self.may_read(*kind, "args")).collect()
    }
}

#[cfg(test)]
mod tests {
    use super::*;

    #[test]
    fn the_stock_names_are_those_of_the_model() {
        assert_eq!(Table(STOCK.rows), Table::stock());
        assert_eq!(STOCK.rooted(), [1, 2, 3, 4, 5, 6, 7, 8]);
        assert_eq!(STOCK.readable(6), ["id", "entity", "version", "args"]);
    }
}
