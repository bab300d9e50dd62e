//! Kind and semantics of a call, and who reads a key (docs/FORMAT.md, "Settings and names", "Keys").

use super::table::{Row, Table, NAMES};

/// Which walk will read a path.
#[derive(Clone, Copy, Debug, PartialEq, Eq)]
pub enum Reader {
    Kernel,
    Projection,
}

impl Reader {
    /// None where the number is not among the known ones.
    pub fn new(number: u64) -> Option<Self> {
        match number {
            1 => Some(Self::Kernel),
            2 => Some(Self::Projection),
            _ => None,
        }
    }
}

/// Whether semantics is a service's; none where it is not among the known ones.
pub fn is_service(semantics: u64) -> Option<bool> {
    (1..=4).contains(&semantics).then_some(semantics >= 2)
}

/// What the checks need to know of kind, semantics and table.
pub struct Setting {
    kind: u64,
    row: Row,
    pub rule_kind: bool,
    pub service: bool,
}

impl Setting {
    /// With the stock table; none where kind or semantics is not among the known ones.
    pub fn new(kind: u64, semantics: u64) -> Option<Self> {
        let service = is_service(semantics)?;
        (1..=8).contains(&kind).then(|| Setting {
            kind,
            row: Table::stock().row(kind),
            rule_kind: matches!(kind, 1 | 2 | 5 | 6),
            service,
        })
    }

    pub fn under(self, table: &Table) -> Self {
        let row = table.row(self.kind);
        Self { row, ..self }
    }

    /// Whether the kind may read the name, given without its `$`.
    pub fn allows(&self, name: &str) -> bool {
        let mut marks = NAMES.iter().zip(self.row);
        marks.any(|(known, mark)| *known == name && mark)
    }
}
