//! A check with everything that it can be lent.

use crate::constants::{Constant, constants};
use crate::limits::{
    EXPLAIN_RESULT_BYTES, MARKS_BYTES, OPENING_LIST_BYTES, OPENINGS_BYTES, PATH_BYTES, TALLY_BYTES,
    WALL_BYTES,
};
use crate::openings;
use crate::refusal::Refusal;
use crate::settings::{Kind, Semantics};
use crate::sheets::{RuleBytes, SchemaBytes};
use crate::tally::{self, Tally};
use crate::verdict::{self, Verdict};
use crate::{raw, wall};

/// Room for a message at first. Longer ones print a large value, or tell of long names.
const USUAL_MESSAGE_BYTES: usize = 1_024;

/// A check of a rule or template, as the first letter of its sheet says, with everything that it can be lent.
///
/// Without a name table it answers as [`check`](crate::check) does.
///
/// ```
/// use entity_rules::{Check, Kind, Name, Schema, Semantics, Table, Template};
///
/// let table = Table::stock().hide(Kind::OperationTemplate, Name::ToState).sheet()?;
/// let event = Check::new(Kind::OperationTemplate, Semantics::Kernel1, "event").table(&table);
///
/// let schema = Schema::new().sheet()?;
/// let template = Template::new("$to_state").sheet()?;
/// let checked = event.run(&schema, &template)?;
/// assert_eq!(checked.verdict.defect().map(|defect| defect.path.as_str()), Some("event"));
/// # Ok::<(), Box<dyn std::error::Error>>(())
/// ```
#[derive(Clone, Copy, Debug)]
pub struct Check<'a> {
    kind: Kind,
    semantics: Semantics,
    label: &'a [u8],
    table: &'a [u8],
}

impl<'a> Check<'a> {
    /// A check that is lent nothing. The label begins the path of a defect; it is text of at most 256 bytes.
    ///
    /// ```
    /// use entity_rules::{Check, Kind, Semantics, Verdict};
    ///
    /// let check = Check::new(Kind::Invariant, Semantics::Kernel1, "always");
    /// let checked = check.run(b"H,0,0,-,0\n", b"R,-,-,\nC,1,1,\n")?;
    /// assert_eq!(checked.verdict, Verdict::Accepted { passed: 4 });
    /// # Ok::<(), entity_rules::Refusal>(())
    /// ```
    pub fn new(kind: Kind, semantics: Semantics, label: &'a (impl AsRef<[u8]> + ?Sized)) -> Self {
        Self {
            kind,
            semantics,
            label: label.as_ref(),
            table: &[],
        }
    }

    /// Lends it a name table, of whose bytes the first 176 count. No bytes are the stock table.
    ///
    /// ```
    /// use entity_rules::{Check, Kind, Refusal, Semantics};
    ///
    /// let check = Check::new(Kind::Invariant, Semantics::Kernel1, "always").table(b"N,1\n");
    /// let refused = check.run(b"H,0,0,-,0\n", b"R,-,-,\nC,1,1,\n");
    /// assert_eq!(refused, Err(Refusal::TableForm));
    /// ```
    #[must_use]
    pub const fn table(self, table: &'a [u8]) -> Self {
        Self { table, ..self }
    }

    /// Checks a rule or template against a schema.
    ///
    /// ```
    /// use entity_rules::{Check, Kind, Refusal, Semantics};
    ///
    /// let check = Check::new(Kind::Invariant, Semantics::Kernel1, "r");
    /// assert_eq!(check.run(b"H,0,0,-,0\n", b"H,0,0,-,0\n"), Err(Refusal::RuleSheet));
    /// ```
    ///
    /// # Errors
    ///
    /// If the label, the table or one of the sheets is refused.
    pub fn run<'s>(
        &self,
        schema: impl Into<SchemaBytes<'s>>,
        rule: impl Into<RuleBytes<'s>>,
    ) -> Result<Checked, Refusal> {
        let (schema, rule) = (schema.into().0, rule.into().0);
        let (mut path, mut marks) = (vec![0; PATH_BYTES], vec![0; MARKS_BYTES]);
        let mut result = [0; EXPLAIN_RESULT_BYTES];
        let (kind, semantics) = (self.kind.number().into(), self.semantics.number().into());
        let mut message = vec![0; USUAL_MESSAGE_BYTES];
        let mut explain = |message: &mut [u8]| {
            raw::explain(
                kind,
                semantics,
                self.label,
                self.table,
                schema,
                rule,
                &mut path,
                &mut marks,
                message,
                &mut result,
            );
            (raw::field(&result, 8), raw::field(&result, 9))
        };
        let (is_short, length) = explain(&mut message);
        let length = usize::try_from(length).unwrap_or(usize::MAX);
        if is_short == Refusal::Message.number() {
            message = vec![0; length];
            explain(&mut message);
        }
        let numbers = raw::numbers(&result);
        let verdict = verdict::answer(numbers, &path, message.get(..length))?;
        let constants = constants(&marks, raw::field(&result, 7));
        Ok(Checked {
            verdict,
            constants: constants.ok_or(Refusal::Unknown(numbers))?,
        })
    }

    /// Checks every sheet of a rule book against a schema, and tallies how they fare; otherwise as [`tally`](crate::tally()).
    ///
    /// ```
    /// use entity_rules::{Book, Check, Kind, Name, Semantics, Table};
    ///
    /// let table = Table::stock().show(Kind::OutcomeSelector, Name::State).sheet()?;
    /// let check = Check::new(Kind::OutcomeSelector, Semantics::Service1, "branch");
    /// let book = Book::new().sheet("T\nV,5,6,$state\n");
    /// assert_eq!(check.tally(b"H,0,0,-,0\n", &book)?.accepted, 0);
    /// assert_eq!(check.table(&table).tally(b"H,0,0,-,0\n", &book)?.accepted, 1);
    /// # Ok::<(), Box<dyn std::error::Error>>(())
    /// ```
    ///
    /// # Errors
    ///
    /// If the label or the table is refused, or the file is not a book.
    pub fn tally(&self, schema: &[u8], book: impl AsRef<[u8]>) -> Result<Tally, Refusal> {
        let mut path = vec![0; PATH_BYTES];
        let mut result = [0; TALLY_BYTES];
        let (kind, semantics) = (self.kind.number().into(), self.semantics.number().into());
        raw::tally(
            kind,
            semantics,
            self.label,
            self.table,
            schema,
            book.as_ref(),
            &mut path,
            &mut result,
        );
        tally::answer(&result)
    }

    /// Checks every sheet of a rule book against a schema, and prints how they fare on pages; otherwise as [`wall`](crate::wall()).
    ///
    /// ```
    /// use entity_rules::{Check, Kind, Semantics};
    ///
    /// let check = Check::new(Kind::Invariant, Semantics::Kernel1, "mill");
    /// assert_eq!(check.wall(b"H,0,0,-,0\n", b"")?, "");
    /// assert_eq!(check.wall(b"H,0,0,-,0\n", b"0,")?.len(), 60 * 81);
    /// # Ok::<(), entity_rules::Refusal>(())
    /// ```
    ///
    /// # Errors
    ///
    /// If the label or the table is refused, or the file is not a book.
    pub fn wall(&self, schema: &[u8], book: impl AsRef<[u8]>) -> Result<String, Refusal> {
        let book = book.as_ref();
        let mut path = vec![0; PATH_BYTES];
        let mut pages = wall::buffer(book);
        let mut result = [0; WALL_BYTES];
        let (kind, semantics) = (self.kind.number().into(), self.semantics.number().into());
        raw::wall(
            kind,
            semantics,
            self.label,
            self.table,
            schema,
            book,
            &mut path,
            &mut pages,
            &mut result,
        );
        wall::answer(&result, pages)
    }

    /// Finds the fewest open marks of a schema that must go from 0 to 1 for a rule or template to be accepted; otherwise as [`openings`](crate::openings()). The label has no influence,
    /// and is not looked at.
    ///
    /// ```
    /// use entity_rules::{Check, Kind, Name, Semantics, Table};
    ///
    /// let (schema, template) = (b"H,0,0,0,0\n", b"T\nV,5,7,$args.x\n");
    /// let check = Check::new(Kind::CreateSet, Semantics::Service1, "set");
    /// assert_eq!(check.openings(schema, template)?, Some(vec![0]));
    ///
    /// // A name that the table hides is not to be had by opening.
    /// let table = Table::stock().hide(Kind::CreateSet, Name::Args).sheet()?;
    /// assert_eq!(check.table(&table).openings(schema, template)?, None);
    /// # Ok::<(), Box<dyn std::error::Error>>(())
    /// ```
    ///
    /// # Errors
    ///
    /// If the table or one of the sheets is refused.
    pub fn openings<'s>(
        &self,
        schema: impl Into<SchemaBytes<'s>>,
        rule: impl Into<RuleBytes<'s>>,
    ) -> Result<Option<Vec<u32>>, Refusal> {
        let (mut path, mut list) = (vec![0; PATH_BYTES], vec![0; OPENING_LIST_BYTES]);
        let mut result = [0; OPENINGS_BYTES];
        let (kind, semantics) = (self.kind.number().into(), self.semantics.number().into());
        raw::openings(
            kind,
            semantics,
            self.table,
            schema.into().0,
            rule.into().0,
            &mut path,
            &mut list,
            &mut result,
        );
        openings::answer(&result, &list)
    }
}

/// What a [`Check`] finds.
///
/// ```
/// use entity_rules::{Check, Kind, Semantics};
///
/// let check = Check::new(Kind::CreateSelector, Semantics::Service1, "branch");
/// let checked = check.run(b"H,0,0,-,0\n", b"T\nV,5,7,$fields\n")?;
/// assert!(checked.verdict.defect().is_some());
/// # Ok::<(), entity_rules::Refusal>(())
/// ```
#[derive(Clone, Debug, PartialEq, Eq, Hash)]
#[non_exhaustive]
pub struct Checked {
    /// Acceptance, or the first defect.
    pub verdict: Verdict,
    /// The constant conditions of a rule that is accepted, in the order of its sheet. Any other has none.
    pub constants: Vec<Constant>,
}
