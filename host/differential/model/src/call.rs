//! What a caller hands over for a check, and what comes back.

pub const MAX_LABEL_BYTES: usize = 256;
pub const PATH_BYTES: usize = 32_768;
pub const MARKS_BYTES: usize = 8_192;
pub const SCRATCH_WORDS: usize = 4_096;

/// What a caller hands over; of the two buffers only their lengths matter.
#[derive(Clone, Copy, Debug)]
pub struct Call<'a> {
    pub kind: u64,
    pub semantics: u64,
    pub label: &'a [u8],
    /// A name table; none, 0 bytes, is the stock table.
    pub table: &'a [u8],
    pub schema: &'a [u8],
    pub rule: &'a [u8],
    pub path_len: usize,
    pub scratch_len: usize,
}

/// What the caller hears. A refusal has its number and nothing else, acceptance the passed count and nothing else.
#[derive(Clone, Debug, Default, PartialEq, Eq)]
pub struct Answer {
    pub number: u32,
    pub family: u32,
    pub detail: u32,
    pub place: u32,
    pub over_place: u32,
    pub passed: u32,
    pub path: Vec<u8>,
}
