//! Name tables: which names each kind may read (docs/FORMAT.md, "The name table").

use crate::entries::{Content, Malformed, read_table};
use crate::limits::TABLE_BYTES;
use crate::raw;
use crate::refusal::Refusal;
use crate::settings::{Kind, Name};
use std::collections::BTreeSet;
use std::fmt;

/// Which names each kind may read, where a mill wants another table than the stock one. A [`Check`](crate::Check) is lent its sheet.
///
/// Every kind reads `$id`, `$entity` and `$version`, and `$old_fields` only where it reads `$fields`. A table that breaks one of these has no sheet.
///
/// ```
/// use entity_rules::{Check, Condition, Kind, Name, Rule, Schema, Semantics, Table};
///
/// let schema = Schema::new().sheet()?;
/// let rule = Rule::new(Condition::eq("$state", "drawn")).sheet()?;
/// let branch = Check::new(Kind::OutcomeSelector, Semantics::Service1, "branch");
/// assert!(!branch.run(&schema, &rule)?.verdict.is_accepted());
///
/// // In this mill outcome selectors read the state.
/// let table = Table::stock().show(Kind::OutcomeSelector, Name::State).sheet()?;
/// assert!(branch.table(&table).run(&schema, &rule)?.verdict.is_accepted());
/// # Ok::<(), Box<dyn std::error::Error>>(())
/// ```
#[derive(Clone, Debug, PartialEq, Eq, Hash)]
pub struct Table {
    shown: BTreeSet<(Kind, Name)>,
}

impl Table {
    /// The table that a check uses where it is lent none.
    ///
    /// ```
    /// use entity_rules::{Kind, Name, Table};
    ///
    /// assert_eq!(
    ///     Table::stock().names(Kind::CreateSelector),
    ///     [Name::Id, Name::Entity, Name::Version, Name::Args]
    /// );
    /// ```
    #[must_use]
    pub fn stock() -> Self {
        let all = Kind::ALL.iter().flat_map(|kind| {
            let names = Name::ALL
                .iter()
                .filter(|name| kind.names().contains(&name.text()));
            names.map(|name| (*kind, *name))
        });
        Self {
            shown: all.collect(),
        }
    }

    /// Lets the kind read the name.
    ///
    /// ```
    /// use entity_rules::{Kind, Name, Table};
    ///
    /// let table = Table::stock().show(Kind::Invariant, Name::Args);
    /// assert!(table.shows(Kind::Invariant, Name::Args));
    /// ```
    #[must_use]
    pub fn show(mut self, kind: Kind, name: Name) -> Self {
        self.shown.insert((kind, name));
        self
    }

    /// Keeps the kind from reading the name.
    ///
    /// ```
    /// use entity_rules::{Kind, Name, Table};
    ///
    /// let table = Table::stock().hide(Kind::Precondition, Name::ToState);
    /// assert!(!table.shows(Kind::Precondition, Name::ToState));
    /// ```
    #[must_use]
    pub fn hide(mut self, kind: Kind, name: Name) -> Self {
        self.shown.remove(&(kind, name));
        self
    }

    /// Whether the kind may read the name.
    ///
    /// ```
    /// use entity_rules::{Kind, Name, Table};
    ///
    /// assert!(Table::stock().shows(Kind::Invariant, Name::State));
    /// assert!(!Table::stock().shows(Kind::Precondition, Name::State));
    /// ```
    #[must_use]
    pub fn shows(&self, kind: Kind, name: Name) -> bool {
        self.shown.contains(&(kind, name))
    }

    /// All names that the kind may read, by rising number.
    ///
    /// ```
    /// use entity_rules::{Kind, Name, Table};
    ///
    /// let names = Table::stock().hide(Kind::CreateSelector, Name::Args).names(Kind::CreateSelector);
    /// assert_eq!(names, [Name::Id, Name::Entity, Name::Version]);
    /// ```
    #[must_use]
    pub fn names(&self, kind: Kind) -> Vec<Name> {
        let all = Name::ALL.iter().copied();
        all.filter(|&name| self.shows(kind, name)).collect()
    }

    /// Its sheet, of 176 bytes.
    ///
    /// ```
    /// use entity_rules::{Kind, Name, Table};
    ///
    /// assert!(Table::stock().sheet()?.starts_with(b"N,1,1,1,1,1,1,0,0,0,0\nN,2,1,1,1,1,0,1,1,1,1\n"));
    ///
    /// let nameless = Table::stock().hide(Kind::Precondition, Name::Id);
    /// assert_eq!(
    ///     nameless.sheet().unwrap_err().to_string(),
    ///     "entry 2, byte 26: expected 1, the mark of $id for precondition, since every kind reads it"
    /// );
    /// # Ok::<(), entity_rules::TableError>(())
    /// ```
    ///
    /// # Errors
    ///
    /// If a mark breaks one of the two conditions.
    pub fn sheet(&self) -> Result<Vec<u8>, TableError> {
        self.kept()?;
        let mut sheet = String::with_capacity(TABLE_BYTES);
        for &kind in Kind::ALL {
            sheet.push_str(&format!("N,{}", kind.number()));
            for &name in Name::ALL {
                sheet.push_str(if self.shows(kind, name) { ",1" } else { ",0" });
            }
            sheet.push('\n');
        }
        Ok(sheet.into_bytes())
    }

    /// The table that a sheet holds, all of it.
    ///
    /// ```
    /// use entity_rules::{Kind, Name, Table, TableError};
    ///
    /// let sheet = Table::stock().hide(Kind::CreateSet, Name::ToState).sheet()?;
    /// assert!(!Table::read(&sheet)?.shows(Kind::CreateSet, Name::ToState));
    ///
    /// let error = Table::read(&sheet[..175]).unwrap_err();
    /// assert_eq!(error.to_string(), "entry 8, byte 175: expected the end of the entry, byte 0A");
    /// # Ok::<(), TableError>(())
    /// ```
    ///
    /// # Errors
    ///
    /// If the bytes are not a table, or a mark breaks one of the two conditions.
    pub fn read(sheet: &[u8]) -> Result<Self, TableError> {
        let entries = read_table(sheet).map_err(TableError::Malformed)?;
        let mut shown = BTreeSet::new();
        for entry in entries {
            if let Content::Row { kind, marks } = entry.content {
                let names = Name::ALL.iter().zip(marks).filter(|(_, mark)| *mark);
                shown.extend(names.map(|(name, _)| (kind, *name)));
            }
        }
        let table = Self { shown };
        table.kept()?;
        Ok(table)
    }

    /// Loads a table's sheet into a buffer, from which later checks can be lent it. The bytes after it stay as they are.
    ///
    /// ```
    /// use entity_rules::limits::TABLE_BYTES;
    /// use entity_rules::{Kind, Name, Table};
    ///
    /// let mut buffer = [0; TABLE_BYTES];
    /// Table::load(&Table::stock().sheet()?, &mut buffer)?;
    ///
    /// // What is not a table leaves the old one there.
    /// assert!(Table::load(b"N,1\n", &mut buffer).is_err());
    /// assert_eq!(Table::read(&buffer)?, Table::stock());
    /// # Ok::<(), entity_rules::TableError>(())
    /// ```
    ///
    /// # Errors
    ///
    /// If the bytes are not a table, a mark breaks one of the two conditions, or the buffer is under 176 bytes. The buffer is then unchanged.
    pub fn load(sheet: &[u8], buffer: &mut [u8]) -> Result<(), TableError> {
        let bytes = buffer.len();
        let number = raw::load_table(sheet, buffer);
        if number == 0 {
            return Ok(());
        }
        Err(match Self::read(sheet) {
            Err(error) if error.number() == number => error,
            _ if number == 37 && bytes < TABLE_BYTES => TableError::ShortBuffer { bytes },
            _ => TableError::Unknown(number),
        })
    }

    /// That the two conditions are kept, or the first mark that breaks one.
    fn kept(&self) -> Result<(), TableError> {
        for &kind in Kind::ALL {
            for name in [Name::Id, Name::Entity, Name::Version] {
                if !self.shows(kind, name) {
                    return Err(TableError::Mark { kind, name });
                }
            }
            if self.shows(kind, Name::OldFields) && !self.shows(kind, Name::Fields) {
                let name = Name::OldFields;
                return Err(TableError::Mark { kind, name });
            }
        }
        Ok(())
    }
}

impl Default for Table {
    /// The stock table.
    fn default() -> Self {
        Self::stock()
    }
}

/// Why there is no table.
///
/// ```
/// use entity_rules::{Kind, Name, Table, TableError};
///
/// let error = Table::stock().show(Kind::CreateSelector, Name::OldFields).sheet().unwrap_err();
/// assert_eq!(error, TableError::Mark { kind: Kind::CreateSelector, name: Name::OldFields });
/// assert_eq!(
///     error.to_string(),
///     "entry 6, byte 130: expected 0, the mark of $old_fields for create_selector, since it does not read $fields"
/// );
/// assert_eq!(error.number(), 38);
/// ```
#[derive(Clone, Debug, PartialEq, Eq)]
#[non_exhaustive]
pub enum TableError {
    /// 37: the bytes stop being a table.
    Malformed(Malformed),
    /// 37: the buffer that a table is loaded into is under 176 bytes.
    ShortBuffer {
        /// How many it has.
        bytes: usize,
    },
    /// 38: a mark breaks one of the two conditions. That of `$old_fields` is 1 where that of `$fields` is 0; any other is 0 although every kind
    /// reads its name.
    Mark {
        /// The kind of the row.
        kind: Kind,
        /// The name of the mark.
        name: Name,
    },
    /// The library that is linked gave this number, which this crate does not know here: they are of different versions.
    Unknown(u32),
}

impl TableError {
    /// The number of the refusal, 37 or 38.
    ///
    /// ```
    /// assert_eq!(entity_rules::TableError::ShortBuffer { bytes: 7 }.number(), 37);
    /// ```
    #[must_use]
    pub const fn number(&self) -> u32 {
        self.refusal().number()
    }

    /// The refusal that it explains.
    ///
    /// ```
    /// use entity_rules::{Kind, Name, Refusal, TableError};
    ///
    /// let error = TableError::Mark { kind: Kind::Invariant, name: Name::Id };
    /// assert_eq!(error.refusal(), Refusal::TableMark);
    /// ```
    #[must_use]
    pub const fn refusal(&self) -> Refusal {
        match self {
            Self::Malformed(_) | Self::ShortBuffer { .. } => Refusal::TableForm,
            Self::Mark { .. } => Refusal::TableMark,
            Self::Unknown(number) => Refusal::Unknown([*number, 0, 0, 0, 0, 0, 0]),
        }
    }

    /// Where the table is at fault, and what was expected there; none if it is not the table's fault.
    ///
    /// ```
    /// use entity_rules::{Kind, Name, TableError};
    ///
    /// let fault = TableError::Mark { kind: Kind::CreateTemplate, name: Name::Version }.fault();
    /// assert_eq!(fault.map(|fault| (fault.entry, fault.byte)), Some((3, 52)));
    /// assert_eq!(TableError::ShortBuffer { bytes: 7 }.fault(), None);
    /// ```
    #[must_use]
    pub fn fault(&self) -> Option<Malformed> {
        match self {
            Self::Malformed(malformed) => Some(malformed.clone()),
            Self::Mark { kind, name } => Some(broken(*kind, *name)),
            Self::ShortBuffer { .. } | Self::Unknown(_) => None,
        }
    }
}

/// The place of the mark, and what it should be.
fn broken(kind: Kind, name: Name) -> Malformed {
    let [row, mark] =
        [kind.number(), name.number()].map(|number| usize::try_from(number).unwrap_or(usize::MAX));
    // A row has 22 bytes, the first mark in its fifth and the others two bytes apart.
    let (before, within) = (
        row.saturating_sub(1).saturating_mul(22),
        mark.saturating_mul(2).saturating_add(2),
    );
    let expected = match name {
        Name::OldFields => {
            format!("0, the mark of ${name} for {kind}, since it does not read $fields")
        }
        _ => format!("1, the mark of ${name} for {kind}, since every kind reads it"),
    };
    Malformed {
        entry: row,
        byte: before.saturating_add(within),
        expected,
    }
}

impl fmt::Display for TableError {
    fn fmt(&self, f: &mut fmt::Formatter<'_>) -> fmt::Result {
        match self {
            Self::Malformed(malformed) => malformed.fmt(f),
            Self::Mark { kind, name } => broken(*kind, *name).fmt(f),
            Self::ShortBuffer { bytes } => write!(
                f,
                "the buffer has {bytes} bytes; expected at least {TABLE_BYTES}"
            ),
            Self::Unknown(number) => write!(f, "the library gave an unknown answer, {number}"),
        }
    }
}

impl std::error::Error for TableError {}
