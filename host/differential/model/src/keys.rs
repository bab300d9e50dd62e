//! One path of the record, as the kernel or a projection reads it (docs/FORMAT.md, "Keys").

use super::call::{Answer, SCRATCH_WORDS};
use super::settings::{is_service, Reader};
use super::sheets::decode_schema;
use super::text;
use super::walks::validate_reference_path;

pub const MAX_KEY_BYTES: usize = 512;

/// What a caller hands over; of the scratch only its length matters.
#[derive(Clone, Copy, Debug)]
pub struct KeyCall<'a> {
    pub semantics: u64,
    pub reader: u64,
    /// Without the `$fields.` that a reference has before it.
    pub path: &'a [u8],
    pub schema: &'a [u8],
    pub scratch_len: usize,
}

/// Refusals 1 to 4 in their order, then the one check.
pub fn check_key(call: &KeyCall) -> Answer {
    let refused = |number| Answer {
        number,
        ..Answer::default()
    };
    let (Some(service), Some(reader)) = (is_service(call.semantics), Reader::new(call.reader))
    else {
        return refused(1);
    };
    if call.path.len() > MAX_KEY_BYTES || !text::is_utf8(call.path) {
        return refused(2);
    }
    if call.scratch_len < SCRATCH_WORDS {
        return refused(3);
    }
    let Some(schema) = decode_schema(call.schema) else {
        return refused(4);
    };
    let path = std::str::from_utf8(call.path).expect("std agrees that this is UTF-8");
    match validate_reference_path(&schema.record, path, reader, service) {
        Ok(()) => Answer {
            passed: 1,
            ..Answer::default()
        },
        Err(fault) => Answer {
            number: 18,
            detail: fault.detail,
            ..Answer::default()
        },
    }
}
