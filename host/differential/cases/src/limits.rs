//! The limits of docs/FORMAT.md, written down a second time: the model has its own.

pub const MAX_SHEET_BYTES: usize = 30_000;
pub const MAX_SCHEMA_ENTRIES: usize = 1_024;
pub const MAX_RULE_ENTRIES: usize = 2_048;
pub const MAX_TEXT_BYTES: usize = 512;
pub const MAX_LABEL_BYTES: usize = 256;
/// Of a key, which is lent as it is.
pub const MAX_PATH_BYTES: usize = 512;
pub const TABLE_BYTES: usize = 176;
pub const MIN_PATH_BYTES: usize = 32_768;
pub const MIN_SCRATCH_WORDS: usize = 4_096;
pub const MAX_FIELD_NESTING: usize = 64;
pub const MAX_VALUE_NESTING: usize = 64;
pub const MAX_CONDITION_NESTING: usize = 256;
/// Arrays and objects of a JSON text.
pub const MAX_JSON_NESTING: usize = 1_024;

/// The refusals of a check, in the order in which they are tried.
pub const REFUSALS: [u32; 7] = [1, 2, 3, 37, 38, 4, 5];

/// The bytes of a result that are written.
pub const RESULT_BYTES: usize = 28;

/// The same of the entry that is lent a list of marks, whose count comes after the seven numbers.
pub const CHECK_RESULT_BYTES: usize = 32;

/// The same of the one that writes a message, after which come 39 or 0 and its length.
pub const EXPLAIN_RESULT_BYTES: usize = 40;

/// The same of a conversion between JSON and a sheet: its number and the length of what is made.
pub const CONVERT_RESULT_BYTES: usize = 8;
