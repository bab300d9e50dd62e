//! Why a call was not answered (docs/FORMAT.md, "Answers").

use crate::entries::{Malformed, read_rule, read_schema};
use crate::sheets::{RuleBytes, SchemaBytes};
use std::fmt;

/// Why a call was not answered.
///
/// The typed functions never meet [`Setting`](Refusal::Setting), [`Width`](Refusal::Width), [`Output`](Refusal::Output), [`Marks`](Refusal::Marks), [`Openings`](Refusal::Openings) and [`Message`](Refusal::Message), since
/// their settings are known ones and their buffers wide enough.
///
/// ```
/// use entity_rules::{check, Kind, Refusal, Semantics};
///
/// let refused = check(Kind::Invariant, Semantics::Kernel1, "r", b"H,0,0", b"T\nV,1,0,\n");
/// assert_eq!(refused, Err(Refusal::SchemaSheet));
/// assert_eq!(Refusal::SchemaSheet.number(), 4);
/// ```
#[derive(Clone, Copy, Debug, PartialEq, Eq, Hash)]
#[non_exhaustive]
pub enum Refusal {
    /// 1: the kind, the semantics or the reader is not among the known ones.
    Setting,
    /// 2: the label is over 256 bytes long, or not UTF-8.
    Label,
    /// 2 of a call for a key path: the path is over 512 bytes long, or not UTF-8.
    Path,
    /// 3: a buffer is too short.
    Width,
    /// 4: the schema sheet is not well formed.
    SchemaSheet,
    /// 4 of a call for two schemas, where the new one's sheet is not well formed; [`SchemaSheet`](Refusal::SchemaSheet) is then the old one's.
    NewSchemaSheet,
    /// 5: the rule sheet is not well formed, or is a template where a rule was asked for, or the reverse.
    RuleSheet,
    /// 31 of a call for a rule in JSON: the text is not one. [`JsonError::fault`](crate::JsonError::fault) says where.
    JsonForm,
    /// 32 of a call for a rule in JSON: its sheet would pass a limit. [`JsonError::fault`](crate::JsonError::fault) says which.
    SheetLimit,
    /// 33 of a call for a wall sheet, or for a rule from JSON or to it: the buffer for the pages, the sheet or the text is too short.
    Output,
    /// 34 of a call for a rule book: the file is not one. [`Book::read`](crate::Book::read) says where.
    BookForm,
    /// 35: the list of marks is too short.
    Marks,
    /// 36 of a call for openings: the list of marks to open is too short.
    Openings,
    /// 37: the name table is malformed. [`Table::read`](crate::Table::read) says where.
    TableForm,
    /// 38: a mark of the name table breaks one of its two conditions. [`Table::read`](crate::Table::read) says which.
    TableMark,
    /// 39, which stands beside a defect in a field of its own: the buffer for its message is too short.
    Message,
    /// The library that is linked gave these seven numbers, which this crate does not know: they are of different versions.
    Unknown([u32; 7]),
}

impl Refusal {
    /// Its number among the answers.
    ///
    /// ```
    /// assert_eq!(entity_rules::Refusal::Label.number(), 2);
    /// ```
    #[must_use]
    pub const fn number(self) -> u32 {
        match self {
            Self::Setting => 1,
            Self::Label | Self::Path => 2,
            Self::Width => 3,
            Self::SchemaSheet | Self::NewSchemaSheet => 4,
            Self::RuleSheet => 5,
            Self::JsonForm => 31,
            Self::SheetLimit => 32,
            Self::Output => 33,
            Self::BookForm => 34,
            Self::Marks => 35,
            Self::Openings => 36,
            Self::TableForm => 37,
            Self::TableMark => 38,
            Self::Message => 39,
            Self::Unknown([number, ..]) => number,
        }
    }

    /// The words for it in the format's table of answers.
    ///
    /// ```
    /// assert_eq!(entity_rules::Refusal::RuleSheet.word(), "rule sheet");
    /// ```
    #[must_use]
    pub const fn word(self) -> &'static str {
        match self {
            Self::Setting => "setting",
            Self::Label => "label",
            Self::Path => "path",
            Self::Width => "width",
            Self::SchemaSheet | Self::NewSchemaSheet => "schema sheet",
            Self::RuleSheet => "rule sheet",
            Self::JsonForm => "JSON form",
            Self::SheetLimit => "sheet limit",
            Self::Output => "output",
            Self::BookForm => "book form",
            Self::Marks => "mark list",
            Self::Openings => "opening list",
            Self::TableForm => "table form",
            Self::TableMark => "table mark",
            Self::Message => "message buffer",
            Self::Unknown(_) => "unknown",
        }
    }

    /// Where the sheet that was refused stops being one; none if it was not for a sheet of these.
    ///
    /// ```
    /// use entity_rules::{check, Kind, Semantics};
    ///
    /// let (schema, rule) = (b"H,0,0,-,0\n", b"R,-,-,\nC,22,0,\n");
    /// let refused = check(Kind::Invariant, Semantics::Kernel1, "r", schema, rule).unwrap_err();
    /// let fault = refused.fault(schema, rule).ok_or("a fault")?;
    /// assert_eq!((fault.entry, fault.byte), (2, 9));
    /// assert_eq!(fault.to_string(), "entry 2, byte 9: expected an operator, 1 to 21");
    /// # Ok::<(), Box<dyn std::error::Error>>(())
    /// ```
    #[must_use]
    pub fn fault<'a>(
        self,
        schema: impl Into<SchemaBytes<'a>>,
        rule: impl Into<RuleBytes<'a>>,
    ) -> Option<Malformed> {
        match self {
            Self::SchemaSheet => read_schema(schema.into().0).err(),
            Self::RuleSheet => read_rule(rule.into().0).err(),
            _ => None,
        }
    }

    /// The refusal of a check that has this number.
    pub(crate) const fn from_number(number: u32) -> Option<Self> {
        match number {
            1 => Some(Self::Setting),
            2 => Some(Self::Label),
            3 => Some(Self::Width),
            4 => Some(Self::SchemaSheet),
            5 => Some(Self::RuleSheet),
            35 => Some(Self::Marks),
            37 => Some(Self::TableForm),
            38 => Some(Self::TableMark),
            _ => None,
        }
    }
}

impl fmt::Display for Refusal {
    fn fmt(&self, f: &mut fmt::Formatter<'_>) -> fmt::Result {
        match self {
            Self::Setting => {
                f.pad("the kind is not 1 to 8, the semantics not 1 to 4, or the reader not 1 or 2")
            }
            Self::Label => f.pad("the label is over 256 bytes long, or not UTF-8"),
            Self::Path => f.pad("the path is over 512 bytes long, or not UTF-8"),
            Self::Width => f.pad(
                "the path buffer is under 32,768 bytes, or the result under 28 (32 for a check with marks, 40 with a message, 144 for a tally, 16 for a wall sheet, 12 for openings)",
            ),
            Self::SchemaSheet => f.pad("the schema sheet is not well formed"),
            Self::NewSchemaSheet => f.pad("the new schema's sheet is not well formed"),
            Self::RuleSheet => {
                f.pad("the rule sheet is not well formed, or is a template where a rule was asked for, or the reverse")
            }
            Self::JsonForm => f.pad("the text is not the JSON of a rule"),
            Self::SheetLimit => f.pad("the sheet of the rule would pass a limit"),
            Self::Output => f.pad("the buffer for the pages, the sheet or the text is too short"),
            Self::BookForm => f.pad("the file is not a rule book"),
            Self::Marks => f.pad("the list of marks is under 8,192 bytes"),
            Self::Openings => f.pad("the list of marks to open is under 4,100 bytes"),
            Self::TableForm => f.pad("the name table is malformed"),
            Self::TableMark => f.pad(
                "a mark of the name table hides a name that every kind reads, or shows $old_fields where $fields is hidden",
            ),
            Self::Message => f.pad("the buffer for the message is too short"),
            Self::Unknown(numbers) => write!(f, "the library gave an unknown answer, {numbers:?}"),
        }
    }
}

impl std::error::Error for Refusal {}
