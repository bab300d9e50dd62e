//! Keys: one path of the record under a reader.

pub mod edges;
pub mod generate;

use crate::case::Expect;
use crate::limits::{MIN_SCRATCH_WORDS, RESULT_BYTES};
use crate::shrink::{schemas, shorter};
use model::{decode_schema, write_schema, KeyCall};

pub const KERNEL: u64 = 1;
pub const PROJECTION: u64 = 2;
pub const READERS: [u64; 2] = [KERNEL, PROJECTION];

/// What a caller of `rulecheck_path` hands over, and what is known of the answer beforehand.
#[derive(Clone, Debug, PartialEq, Eq)]
pub struct KeyCase {
    pub semantics: u64,
    pub reader: u64,
    pub path: Vec<u8>,
    pub schema: Vec<u8>,
    pub result_len: usize,
    pub expect: Expect,
}

impl KeyCase {
    /// A case with a result that is wide enough.
    pub fn new(semantics: u64, reader: u64, path: &str, schema: Vec<u8>) -> Self {
        Self { semantics, reader, path: path.as_bytes().to_vec(), schema, result_len: RESULT_BYTES, expect: Expect::Anything }
    }

    pub fn expecting(self, expect: Expect) -> Self {
        Self { expect, ..self }
    }

    /// A function with a result that is too short lends no scratch.
    pub fn call(&self) -> KeyCall<'_> {
        let scratch_len = if self.result_len < RESULT_BYTES { 0 } else { MIN_SCRATCH_WORDS };
        KeyCall { semantics: self.semantics, reader: self.reader, path: &self.path, schema: &self.schema, scratch_len }
    }
}

/// A smaller schema, or a shorter path.
pub fn candidates(case: &KeyCase) -> Vec<KeyCase> {
    let sheets = match decode_schema(&case.schema) {
        Some(schema) => schemas(&schema).iter().map(write_schema).collect(),
        None => shorter(&case.schema),
    };
    let sheets = sheets.into_iter().map(|schema| KeyCase { schema, ..case.clone() });
    sheets.chain(shorter(&case.path).into_iter().map(|path| KeyCase { path, ..case.clone() })).collect()
}
