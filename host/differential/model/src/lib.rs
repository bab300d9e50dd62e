//! A plain model of docs/FORMAT.md: trees and recursion, the check list as a list, obvious before fast. It is written from the
//! format alone, so that the checker and the Rust can both be compared with it.

pub mod book;
mod call;
pub mod checks;
pub mod instant;
pub mod json;
mod keys;
pub mod marks;
mod messages;
pub mod number;
mod openings;
mod paths;
mod program;
pub mod rule_json;
pub mod settings;
mod sheets;
pub mod table;
pub mod text;
pub mod trees;
mod verdict;
mod walks;
pub mod wall;
mod widening;

#[cfg(test)]
mod tests;

pub use book::{sheets, tally, write_book, BookCall, TallyNumbers, TALLY_BYTES};
pub use call::{Answer, Call, MARKS_BYTES, MAX_LABEL_BYTES, PATH_BYTES, SCRATCH_WORDS};
pub use keys::{check_key, KeyCall, MAX_KEY_BYTES};
pub use openings::{openings, OpeningsCall, OPENINGS_BYTES, OPENING_LIST_BYTES};
pub use program::rulecheck;
pub use rule_json::{from_json, to_json, Converted};
pub use sheets::{decode_rule, decode_schema, write_rule, write_schema};
pub use table::load_table;
pub use verdict::{check, explain};
pub use walks::is_ordinal;
pub use wall::{wall, WallCall, PAGE_BYTES, PAGE_SHEETS, WALL_BYTES};
pub use widening::{first_breach, is_widening, only_marks_opened, widens, Breach};
