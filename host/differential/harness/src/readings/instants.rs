//! Instants by the second reading, and what the library answers for what is read.

use cases::limits::RESULT_BYTES;

#[path = "../../../around/timestamp.rs"]
pub mod second;

/// Year, month, day, hour, minute, second, nanoseconds.
pub type Fields = [u32; 7];

/// What `rulecheck_instant` answers where the fields have so much room: the number, and what is written where that is 0.
pub fn answer(fields: Option<Fields>, room: usize) -> (u32, Option<Vec<u8>>) {
    match fields {
        _ if room < RESULT_BYTES => (3, None),
        None => (20, None),
        Some(fields) => (0, Some(fields.into_iter().flat_map(u32::to_le_bytes).collect())),
    }
}
