//! The entries of a sheet, read for display: what is at a place, or where a sheet stops being one.
//!
//! Whether a sheet is accepted, the library decides. This reading serves to show what an answer is about.
//!
//! ```
//! use entity_rules::entries::{read_rule, Content};
//!
//! let sheet = b"R,-,-,\nC,5,0,\nV,5,8,$args.by\n";
//! let entries = read_rule(sheet)?;
//! assert_eq!(entries.len(), 3);
//! assert_eq!(entries[2].content, Content::String("$args.by"));
//! assert_eq!(entries[2].to_string(), "string \"$args.by\"");
//!
//! let error = read_rule(b"R,-,-,\nC,5,1,\nV,5,8,$args.by\n").unwrap_err();
//! assert_eq!(error.to_string(), "entry 2, byte 11: expected 0 here, since `exists` has no count");
//! # Ok::<(), entity_rules::entries::Malformed>(())
//! ```

mod content;
mod mended;
mod reader;
mod rule;
mod schema;
mod table;
mod whole;

pub use crate::vocabulary::Operator;
pub use content::{Content, Entry, Malformed};
pub use rule::read_rule;
pub use schema::read_schema;
pub use table::read_table;
