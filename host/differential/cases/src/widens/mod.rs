//! Pairs of schemas.

pub mod edges;
pub mod generate;

use crate::limits::RESULT_BYTES;
use crate::shrink::{schemas, shorter};
use model::{decode_schema, write_schema};

/// What a caller of `rulecheck_widens` hands over, and what is known of the answer beforehand.
#[derive(Clone, Debug, PartialEq, Eq)]
pub struct WidensCase {
    pub first: Vec<u8>,
    pub second: Vec<u8>,
    pub result_len: usize,
    pub expect: Expect,
}

/// What follows from the way a pair was made.
#[derive(Clone, Copy, Debug, PartialEq, Eq)]
pub enum Expect {
    Anything,
    /// All five numbers.
    Numbers([u32; 5]),
    /// One of the two answers that are yes.
    Widening,
    /// The answer no, for this reason.
    Reason(u32),
}

impl Expect {
    pub fn allows(self, numbers: &[u32; 7]) -> bool {
        match self {
            Self::Anything => true,
            Self::Numbers(wanted) => numbers[..5] == wanted,
            Self::Widening => numbers[0] == 0 && matches!(numbers[1], 1 | 2),
            Self::Reason(reason) => numbers[..3] == [0, 3, reason],
        }
    }
}

impl WidensCase {
    /// A case with a result that is wide enough.
    pub fn new(first: Vec<u8>, second: Vec<u8>) -> Self {
        Self { first, second, result_len: RESULT_BYTES, expect: Expect::Anything }
    }

    pub fn expecting(self, expect: Expect) -> Self {
        Self { expect, ..self }
    }
}

/// A smaller schema on one of the two sides.
pub fn candidates(case: &WidensCase) -> Vec<WidensCase> {
    let smaller = |sheet: &[u8]| match decode_schema(sheet) {
        Some(schema) => schemas(&schema).iter().map(write_schema).collect(),
        None => shorter(sheet),
    };
    let firsts = smaller(&case.first).into_iter().map(|first| WidensCase { first, ..case.clone() });
    let seconds = smaller(&case.second).into_iter().map(|second| WidensCase { second, ..case.clone() });
    firsts.chain(seconds).collect()
}
