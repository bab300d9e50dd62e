//! Rules as JSON (docs/FORMAT.md, "Rules as JSON"), read for display: a text as a tree, where it stops being a rule, and where in it the entries of its sheet come from.
//!
//! Whether a text is a rule, and what its sheet is, the library decides ([`rule_from_json`](crate::rule_from_json)). This reading serves to show what an answer is about.

mod convert;
mod error;
mod fault;
mod reader;
mod shape;
mod tree;

pub use error::JsonError;
pub use fault::Fault;
pub use shape::Origin;
pub use tree::{Content, Part, Tree};

pub(crate) use convert::{rule_from_json, rule_to_json};
pub(crate) use shape::{Laid, meant, quoted, walk, walk_condition, walk_value};

use std::ops::Range;

/// Where in a text each entry of its sheet comes from, in the order of the sheet.
///
/// ```
/// use entity_rules::{json, rule_from_json};
///
/// let text = br#"{"assert": {"compare": {"op": "lt", "right": 3, "left": "$id"}}}"#;
/// assert_eq!(rule_from_json(text)?, b"R,-,-,\nC,18,3,\nV,5,3,$id\nV,4,1,3\n");
/// let starts: Vec<usize> = json::origins(text)?.iter().map(|origin| origin.span.start).collect();
/// assert_eq!(starts, [0, 12, 56, 45]);
/// # Ok::<(), Box<dyn std::error::Error>>(())
/// ```
///
/// # Errors
///
/// If the text is not a rule, or its sheet passes a limit.
pub fn origins(text: &[u8]) -> Result<Vec<Origin>, Fault> {
    let laid = laid(text)?;
    match laid.over {
        None => Ok(laid.origins),
        Some(fault) => Err(fault),
    }
}

/// Where in a text a part of one of its strings is, given by bytes of what the string says.
///
/// ```
/// use entity_rules::json::within;
///
/// let text = br#"{"assert": {"exists": "$fields.\u0062ars"}}"#;
/// assert_eq!(within(text, 22..41, 8..12), 31..40);
/// ```
#[must_use]
pub fn within(text: &[u8], string: Range<usize>, part: Range<usize>) -> Range<usize> {
    reader::within(text, string, part)
}

/// The first name that an object has twice.
pub(crate) fn repeated(text: &[u8], tree: &Tree) -> Option<Fault> {
    let (name, first, again) = tree.repeated()?;
    let line = Fault::new(text, first.start, "").line;
    let reason = format!("the name {name:?} comes again in this object, first on line {line}");
    Some(Fault::new(text, again.start, reason))
}

/// Every entry of a text's sheet, and the first limit that the sheet passes.
fn laid(text: &[u8]) -> Result<Laid, Fault> {
    let tree = Tree::read(text)?;
    let shaped = walk(text, tree.root());
    match (repeated(text, &tree), shaped) {
        (Some(repeated), Err(fault)) if fault.byte < repeated.byte => Err(fault),
        (Some(repeated), _) => Err(repeated),
        (None, shaped) => shaped,
    }
}
