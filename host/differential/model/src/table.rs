//! The name table (docs/FORMAT.md, "The name table"): which kinds may read which names, and how a table is lent and loaded.

pub const TABLE_BYTES: usize = 176;

/// The names in the order of their marks, each without its `$`.
pub const NAMES: [&str; 9] = [
    "id",
    "entity",
    "version",
    "fields",
    "state",
    "to_state",
    "from_state",
    "args",
    "old_fields",
];

/// The marks of one kind.
pub type Row = [bool; 9];

/// A row for each kind, from kind 1 on.
#[derive(Clone, Copy, Debug, PartialEq, Eq)]
pub struct Table(pub [Row; 8]);

impl Table {
    /// What a check uses that is lent no table.
    pub fn stock() -> Self {
        Self([1, 2, 3, 4, 5, 6, 7, 8].map(stock_row))
    }

    /// Eight entries, `N`, the kind and nine marks, kinds rising from 1, and nothing after them.
    pub fn decode(bytes: &[u8]) -> Option<Self> {
        let mut rows = [[false; 9]; 8];
        let mut rest = bytes;
        for (kind, row) in (1..).zip(&mut rows) {
            rest = rest.strip_prefix(format!("N,{kind}").as_bytes())?;
            for mark in row {
                (*mark, rest) = match rest {
                    [b',', b'0', rest @ ..] => (false, rest),
                    [b',', b'1', rest @ ..] => (true, rest),
                    _ => return None,
                };
            }
            rest = rest.strip_prefix(b"\n")?;
        }
        rest.is_empty().then_some(Self(rows))
    }

    pub fn write(&self) -> Vec<u8> {
        let mut text = String::new();
        for (kind, row) in (1..).zip(&self.0) {
            text += &format!("N,{kind}");
            for mark in row {
                text += if *mark { ",1" } else { ",0" };
            }
            text += "\n";
        }
        text.into_bytes()
    }

    /// What the bytes stand for that a check is lent: none are the stock table, and of others the first 176 are looked at.
    pub fn lent(bytes: &[u8]) -> Option<Self> {
        match bytes {
            [] => Some(Self::stock()),
            _ => Self::decode(&bytes[..bytes.len().min(TABLE_BYTES)]),
        }
    }

    /// Whether both conditions hold of every row.
    pub fn is_sound(&self) -> bool {
        self.0.iter().all(is_sound)
    }

    /// The row of a kind from 1 to 8.
    pub fn row(&self, kind: u64) -> Row {
        self.0[kind as usize - 1]
    }
}

/// Every kind reads `$id`, `$entity` and `$version`, and `$old_fields` only where it reads `$fields`.
fn is_sound(row: &Row) -> bool {
    let [id, entity, version, fields, _, _, _, _, old_fields] = *row;
    id && entity && version && (fields || !old_fields)
}

fn stock_row(kind: u64) -> Row {
    [
        true,
        true,
        true,
        !matches!(kind, 6 | 7),
        !matches!(kind, 2 | 5 | 6),
        !matches!(kind, 1 | 5 | 6),
        matches!(kind, 2 | 4 | 5),
        matches!(kind, 2 | 4..=8),
        matches!(kind, 2 | 4),
    ]
}

/// Copies a table to the start of a buffer, and answers 0; else 37 or 38, and the buffer stays as it is.
pub fn load_table(table: &[u8], buffer: &mut [u8]) -> u32 {
    match (Table::decode(table), buffer.get_mut(..TABLE_BYTES)) {
        (None, _) | (_, None) => 37,
        (Some(read), Some(_)) if !read.is_sound() => 38,
        (Some(_), Some(start)) => {
            start.copy_from_slice(table);
            0
        }
    }
}
