//! The limits of sheets, labels, keys, tables, lists and buffers (docs/FORMAT.md).
//!
//! ```
//! use entity_rules::limits::MAX_TEXT_BYTES;
//! use entity_rules::{Template, Value};
//!
//! let longest = "t".repeat(MAX_TEXT_BYTES);
//! assert!(Template::new(Value::string(&longest)).sheet().is_ok());
//! assert!(Template::new(Value::string(&format!("{longest}t"))).sheet().is_err());
//! ```

/// Bytes of a sheet.
pub const MAX_SHEET_BYTES: usize = 30_000;

/// Entries of a schema sheet, its head among them.
pub const MAX_SCHEMA_ENTRIES: usize = 1_024;

/// Entries of a rule's or template's sheet, its head among them.
pub const MAX_RULE_ENTRIES: usize = 2_048;

/// Bytes of a name, tag, message, bind, key, string or number.
pub const MAX_TEXT_BYTES: usize = 512;

/// How deep fields nest, elements and properties alike.
pub const MAX_FIELD_NESTING: usize = 64;

/// How deep conditions nest in a sheet. Over 32 is still a defect.
pub const MAX_CONDITION_NESTING: usize = 256;

/// How deep values nest.
pub const MAX_VALUE_NESTING: usize = 64;

/// How deep arrays and objects nest in the JSON of a rule, the rule's own object among them.
pub const MAX_JSON_NESTING: usize = 1_024;

/// Bytes of a label.
pub const MAX_LABEL_BYTES: usize = 256;

/// Bytes of a key path.
pub const MAX_KEY_BYTES: usize = 512;

/// Bytes of a name table.
pub const TABLE_BYTES: usize = 176;

/// Bytes that a call needs for the path.
pub const PATH_BYTES: usize = 32_768;

/// Bytes that a check needs for the list of marks: 2,048 numbers of four bytes.
pub const MARKS_BYTES: usize = 8_192;

/// Bytes that a call needs for the result, or for the fields of an instant: seven numbers of four bytes.
pub const RESULT_BYTES: usize = 28;

/// Bytes that the check with a list of marks needs for the result: the seven numbers, and how many marks there are.
pub const CHECK_RESULT_BYTES: usize = 32;

/// Bytes that the check with a message needs for the result: the eight numbers, whether the message did not fit, and its length.
pub const EXPLAIN_RESULT_BYTES: usize = 40;

/// Bytes that a tally needs for its result: eighteen numbers of eight bytes.
pub const TALLY_BYTES: usize = 144;

/// Bytes that a wall sheet needs for its result: two numbers of eight bytes.
pub const WALL_BYTES: usize = 16;

/// Bytes that a call for openings needs for its result: three numbers of four bytes.
pub const OPENINGS_BYTES: usize = 12;

/// Bytes that a call for openings needs for the list of marks: 1,025 numbers of four bytes.
pub const OPENING_LIST_BYTES: usize = 4_100;

/// Bytes that a conversion from JSON or to it needs for its result: two numbers of four bytes.
pub const JSON_RESULT_BYTES: usize = 8;

/// Sheets that a page of a wall sheet has a line for.
pub const PAGE_SHEETS: usize = 58;

/// Bytes of a page: 60 lines of 80 columns, each with its end.
pub const PAGE_BYTES: usize = 4_860;
