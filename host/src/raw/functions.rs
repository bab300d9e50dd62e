//! The library's C functions as `include/entity_rules.h` declares them, each with the slices that it is lent. The folders bench and differential take this file in, so that there is no other declaration in Rust, and no
//! other place where a slice is taken apart for one of them.

use std::marker::PhantomData;
use std::mem::MaybeUninit;

/// Bytes that a function may write, whether or not they were written before.
pub struct Lent<'a> {
    start: *mut u8,
    length: usize,
    bytes: PhantomData<&'a mut [u8]>,
}

impl<'a> From<&'a mut [u8]> for Lent<'a> {
    fn from(bytes: &'a mut [u8]) -> Self {
        Self {
            start: bytes.as_mut_ptr(),
            length: bytes.len(),
            bytes: PhantomData,
        }
    }
}

impl<'a> From<&'a mut [MaybeUninit<u8>]> for Lent<'a> {
    fn from(bytes: &'a mut [MaybeUninit<u8>]) -> Self {
        Self {
            start: bytes.as_mut_ptr().cast(),
            length: bytes.len(),
            bytes: PhantomData,
        }
    }
}

/// Declares functions that take numbers, then slices that are read, slices that are written, and in some a last number. In C a slice is a pointer and a length.
macro_rules! functions {
    ($($name:ident($($number:ident: $of:ty),*; $($read:ident),*; $($written:ident),* $(; $last:ident: $last_of:ty)?) -> $answer:ty;)*) => {$(
        #[allow(clippy::too_many_arguments, reason = "as many as the C function has slices and numbers")]
        pub fn $name($($number: $of,)* $($read: &[u8],)* $($written: Lent<'_>,)* $($last: $last_of)?) -> $answer {
            unsafe extern "C" {
                fn $name(
                    $($number: $of,)*
                    $($read: *const u8, _: usize,)*
                    $($written: *mut u8, _: usize,)*
                    $($last: $last_of)?
                ) -> $answer;
            }
            // SAFETY: each pointer and length are those of a slice, so the pointer is not null even where the length is 0. The library reads the first slices and
            // writes the others, none of them beyond its length, and keeps no pointer; what the others held before has no effect. As slices lent mutably these
            // overlap nothing.
            unsafe {
                $name(
                    $($number,)*
                    $($read.as_ptr(), $read.len(),)*
                    $($written.start, $written.length,)*
                    $($last)?
                )
            }
        }
    )*};
}

functions! {
    rulecheck_rule(kind: u64, semantics: u64; label, schema, rule; path, result) -> u32;
    rulecheck_template(kind: u64, semantics: u64; label, schema, rule; path, result) -> u32;
    rulecheck_check(kind: u64, semantics: u64; label, table, schema, rule; path, marks, result) -> u32;
    rulecheck_explain(kind: u64, semantics: u64; label, table, schema, rule; path, marks, message, result) -> u32;
    rulecheck_load_table(; table; buffer) -> u32;
    rulecheck_path(semantics: u64, reader: u64; path, schema; result) -> u32;
    rulecheck_widens(; first, second; result) -> u32;
    rulecheck_tally(kind: u64, semantics: u64; label, table, schema, book; path, result) -> u32;
    rulecheck_wall(kind: u64, semantics: u64; label, table, schema, book; path, pages, result) -> u32;
    rulecheck_openings(kind: u64, semantics: u64; table, schema, rule; path, list, result) -> u32;
    rulecheck_count(; result; ; index: u32) -> u64;
    rulecheck_field(; result; ; index: u32) -> u32;
    rulecheck_version(; ; ) -> u32;
    rulecheck_finite(; text; ) -> u32;
    rulecheck_instant(; text; fields) -> u32;
    rulecheck_from_json(; text; sheet, result) -> u32;
    rulecheck_to_json(; sheet; json, result) -> u32;
}
