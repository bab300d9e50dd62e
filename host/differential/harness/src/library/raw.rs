//! The C functions on slices.

use crate::library::entry::Entry;
use crate::library::functions::{
    rulecheck_check, rulecheck_count, rulecheck_explain, rulecheck_field, rulecheck_finite, rulecheck_from_json, rulecheck_instant,
    rulecheck_load_table, rulecheck_openings, rulecheck_path, rulecheck_rule, rulecheck_tally, rulecheck_template, rulecheck_to_json,
    rulecheck_wall, rulecheck_widens, Lent,
};
use cases::books::BookCase;
use cases::case::Case;
use cases::keys::KeyCase;
use cases::limits::{CHECK_RESULT_BYTES, CONVERT_RESULT_BYTES, EXPLAIN_RESULT_BYTES, RESULT_BYTES};
use cases::openings::{Opened, OpeningsCase};
use cases::walls::WallCase;
use cases::widens::WidensCase;
use model::{Converted, TallyNumbers, MARKS_BYTES, OPENINGS_BYTES, PAGE_BYTES, TALLY_BYTES, WALL_BYTES};
use std::mem::MaybeUninit;

/// One call of the case, the slices lent as they are, and the table from a place of its own. An entry without marks is lent none.
pub fn check(case: &Case, entry: Entry, table: &[u8], path: &mut [u8], marks: &mut [u8], result: &mut [u8]) -> u32 {
    let inputs = [case.label.as_slice(), table, &case.schema, &case.rule];
    call(case, entry, inputs, [path, marks, result].map(Lent::from))
}

fn call(case: &Case, entry: Entry, [label, table, schema, rule]: [&[u8]; 4], [path, marks, result]: [Lent<'_>; 3]) -> u32 {
    let (kind, semantics) = (case.kind, case.semantics);
    match entry {
        Entry::Rule => rulecheck_rule(kind, semantics, label, schema, rule, path, result),
        Entry::Template => rulecheck_template(kind, semantics, label, schema, rule, path, result),
        Entry::Check => rulecheck_check(kind, semantics, label, table, schema, rule, path, marks, result),
    }
}

/// The answer to a case with its message: label, table, schema and rule are lent from places of their own; path buffer, marks, message and result are written.
pub fn explain(case: &Case, inputs: [&[u8]; 4], buffers: [&mut [u8]; 4]) -> u32 {
    call_explain(case, inputs, buffers.map(Lent::from))
}

fn call_explain(case: &Case, inputs: [&[u8]; 4], [path, marks, message, result]: [Lent<'_>; 4]) -> u32 {
    let [label, table, schema, rule] = inputs;
    rulecheck_explain(case.kind, case.semantics, label, table, schema, rule, path, marks, message, result)
}

/// The same with buffers fresh from the allocator and copies of the inputs, as `fresh`: the number, the seven numbers where the result has room for them, and the message, none
/// where it did not fit.
pub fn fresh_explain(case: &Case, message_length: usize, result_length: usize) -> (u32, Option<[u32; 7]>, Option<Vec<u8>>) {
    let inputs = [&case.label, &case.table, &case.schema, &case.rule].map(|input| input.clone().into_boxed_slice());
    let lengths = [case.path_len, MARKS_BYTES, message_length, result_length];
    let [mut path, mut marks, mut message, mut result] = lengths.map(Box::<[u8]>::new_uninit_slice);
    let buffers = [&mut path, &mut marks, &mut message, &mut result].map(|buffer| Lent::from(&mut buffer[..]));
    let [label, table, schema, rule] = &inputs;
    let number = call_explain(case, [label, table, schema, rule], buffers);
    // SAFETY: the call wrote the result, if it has room, and the message as far as that says.
    unsafe {
        let Some(numbers) = written(result.get(..EXPLAIN_RESULT_BYTES).unwrap_or_default()) else {
            return (number, None, None);
        };
        let result = std::slice::from_raw_parts(result.as_ptr().cast::<u8>(), EXPLAIN_RESULT_BYTES);
        let [refusal, length] = [8, 9].map(|index| field(result, index));
        let said = || std::slice::from_raw_parts(message.as_ptr().cast::<u8>(), length as usize).to_vec();
        (number, Some(numbers), (refusal == 0).then(said))
    }
}

/// A call with buffers fresh from the allocator, which nobody wrote yet, and copies of the inputs that are exactly as long as these: the number, the
/// seven numbers where the result has room for them, the path, and the marks.
pub fn fresh(case: &Case, entry: Entry, result_length: usize) -> (u32, Option<[u32; 7]>, Vec<u8>, Vec<u32>) {
    let inputs = [&case.label, &case.table, &case.schema, &case.rule].map(|input| input.clone().into_boxed_slice());
    let (mut path, mut result) = (Box::<[u8]>::new_uninit_slice(case.path_len), Box::<[u8]>::new_uninit_slice(result_length));
    let [label, table, schema, rule] = &inputs;
    let mut marks = Box::<[u8]>::new_uninit_slice(MARKS_BYTES);
    let buffers = [&mut path, &mut marks, &mut result].map(|buffer| Lent::from(&mut buffer[..]));
    let number = call(case, entry, [label, table, schema, rule], buffers);
    // SAFETY: the call wrote the result, if it has room.
    let Some(numbers) = (unsafe { written(result.get(..entry.result_bytes()).unwrap_or_default()) }) else {
        return (number, None, Vec::new(), Vec::new());
    };
    // SAFETY: as long as this the path was written.
    let path = unsafe { std::slice::from_raw_parts(path.as_ptr().cast::<u8>(), numbers[6] as usize) };
    // SAFETY: an entry with marks wrote how many there are, and so many of them.
    let marks = unsafe { (entry == Entry::Check).then(|| written_marks(&result, &marks)) };
    (number, Some(numbers), path.to_vec(), marks.unwrap_or_default())
}

/// The marks of a list that was lent with a result.
///
/// # Safety
///
/// The result was written in its first 32 bytes, and the list as far as the number at index 7 says.
unsafe fn written_marks(result: &[MaybeUninit<u8>], marks: &[MaybeUninit<u8>]) -> Vec<u32> {
    let result = std::slice::from_raw_parts(result.as_ptr().cast::<u8>(), CHECK_RESULT_BYTES);
    let count = field(result, 7);
    let marks = std::slice::from_raw_parts(marks.as_ptr().cast::<u8>(), 4 * count as usize);
    (0..count).map(|index| field(marks, index)).collect()
}

/// The seven numbers of a result, if it has room for them.
///
/// # Safety
///
/// A result with room was written in its first bytes, as every call does.
unsafe fn written(result: &[MaybeUninit<u8>]) -> Option<[u32; 7]> {
    let written = result.get(..RESULT_BYTES)?;
    let written = std::slice::from_raw_parts(written.as_ptr().cast::<u8>(), RESULT_BYTES);
    Some([0, 1, 2, 3, 4, 5, 6].map(|index| field(written, index)))
}

/// A call for a key with a result fresh from the allocator and copies of the inputs, as `fresh`.
pub fn fresh_key(case: &KeyCase) -> (u32, Option<[u32; 7]>) {
    let [path, schema] = [&case.path, &case.schema].map(|input| input.clone().into_boxed_slice());
    let mut result = Box::<[u8]>::new_uninit_slice(case.result_len);
    let number = rulecheck_path(case.semantics, case.reader, &path, &schema, Lent::from(&mut result[..]));
    // SAFETY: the call wrote the result, if it has room.
    (number, unsafe { written(&result) })
}

pub fn key(semantics: u64, reader: u64, path: &[u8], schema: &[u8], result: &mut [u8]) -> u32 {
    rulecheck_path(semantics, reader, path, schema, result.into())
}

pub fn widens(first: &[u8], second: &[u8], result: &mut [u8]) -> u32 {
    rulecheck_widens(first, second, result.into())
}

/// A call for two schemas with a result fresh from the allocator and copies of the inputs, as `fresh`.
pub fn fresh_widens(case: &WidensCase) -> (u32, Option<[u32; 7]>) {
    let [first, second] = [&case.first, &case.second].map(|input| input.clone().into_boxed_slice());
    let mut result = Box::<[u8]>::new_uninit_slice(case.result_len);
    let number = rulecheck_widens(&first, &second, Lent::from(&mut result[..]));
    // SAFETY: the call wrote the result, if it has room.
    (number, unsafe { written(&result) })
}

/// Tallies the book of a case: label, table, schema and book are lent from places of their own.
pub fn tally(case: &BookCase, inputs: [&[u8]; 4], path: &mut [u8], result: &mut [u8]) -> u32 {
    call_tally(case, inputs, [path, result].map(Lent::from))
}

fn call_tally(case: &BookCase, [label, table, schema, book]: [&[u8]; 4], [path, result]: [Lent<'_>; 2]) -> u32 {
    rulecheck_tally(case.kind, case.semantics, label, table, schema, book, path, result)
}

/// A tally with buffers fresh from the allocator and copies of the inputs, as `fresh`.
pub fn fresh_tally(case: &BookCase) -> (u32, Option<TallyNumbers>) {
    let inputs = case.inputs().map(|input| input.to_vec().into_boxed_slice());
    let [mut path, mut result] = [case.path_len, case.result_len].map(Box::<[u8]>::new_uninit_slice);
    let [label, table, schema, book] = &inputs;
    let buffers = [&mut path, &mut result].map(|buffer| Lent::from(&mut buffer[..]));
    let number = call_tally(case, [label, table, schema, book], buffers);
    // SAFETY: the call wrote the result, if it has room.
    unsafe {
        let written = result.get(..TALLY_BYTES).map(|written| std::slice::from_raw_parts(written.as_ptr().cast::<u8>(), TALLY_BYTES));
        (number, written.map(|written| std::array::from_fn(|index| count(written, index as u32))))
    }
}

/// Prints the book of a case, whose inputs are lent from places of their own; path buffer, pages and result are written.
pub fn wall(case: &WallCase, inputs: [&[u8]; 4], buffers: [&mut [u8]; 3]) -> u32 {
    call_wall(case, inputs, buffers.map(Lent::from))
}

fn call_wall(case: &WallCase, [label, table, schema, book]: [&[u8]; 4], [path, pages, result]: [Lent<'_>; 3]) -> u32 {
    rulecheck_wall(case.book.kind, case.book.semantics, label, table, schema, book, path, pages, result)
}

/// A wall sheet with buffers fresh from the allocator and copies of the inputs, as `fresh`: the number, both numbers of the result where it has room, and the pages.
pub fn fresh_wall(case: &WallCase) -> (u32, Option<[u64; 2]>, Vec<u8>) {
    let inputs = case.book.inputs().map(|input| input.to_vec().into_boxed_slice());
    let [mut path, mut pages, mut result] = [case.book.path_len, case.pages_len, case.book.result_len].map(Box::<[u8]>::new_uninit_slice);
    let buffers = [&mut path, &mut pages, &mut result].map(|buffer| Lent::from(&mut buffer[..]));
    let [label, table, schema, book] = &inputs;
    let number = call_wall(case, [label, table, schema, book], buffers);
    // SAFETY: the call wrote the result, if it has room, and as many pages as that says.
    unsafe {
        let Some(written) = result.get(..WALL_BYTES) else {
            return (number, None, Vec::new());
        };
        let written = std::slice::from_raw_parts(written.as_ptr().cast::<u8>(), WALL_BYTES);
        let numbers = [count(written, 0), count(written, 1)];
        let printed = std::slice::from_raw_parts(pages.as_ptr().cast::<u8>(), numbers[1] as usize * PAGE_BYTES);
        (number, Some(numbers), printed.to_vec())
    }
}

/// Asks which marks to open: table, schema and rule are lent from places of their own; path buffer, list and result are written.
pub fn openings(case: &OpeningsCase, inputs: [&[u8]; 3], buffers: [&mut [u8]; 3]) -> u32 {
    call_openings(case, inputs, buffers.map(Lent::from))
}

fn call_openings(case: &OpeningsCase, [table, schema, rule]: [&[u8]; 3], [path, list, result]: [Lent<'_>; 3]) -> u32 {
    rulecheck_openings(case.kind, case.semantics, table, schema, rule, path, list, result)
}

/// The same with buffers fresh from the allocator and copies of the inputs, as `fresh`: the number, and what is answered where the result has room.
pub fn fresh_openings(case: &OpeningsCase) -> (u32, Option<Opened>) {
    let inputs = case.inputs().map(|input| input.to_vec().into_boxed_slice());
    let [mut path, mut list, mut result] = [case.path_len, case.list_len, case.result_len].map(Box::<[u8]>::new_uninit_slice);
    let buffers = [&mut path, &mut list, &mut result].map(|buffer| Lent::from(&mut buffer[..]));
    let [table, schema, rule] = &inputs;
    let number = call_openings(case, [table, schema, rule], buffers);
    // SAFETY: the call wrote the result, if it has room, and as many marks as that says.
    unsafe {
        let Some(written) = result.get(..OPENINGS_BYTES) else {
            return (number, None);
        };
        let written = std::slice::from_raw_parts(written.as_ptr().cast::<u8>(), OPENINGS_BYTES);
        let numbers = [0, 1, 2].map(|index| field(written, index));
        let list = std::slice::from_raw_parts(list.as_ptr().cast::<u8>(), 4 * numbers[2] as usize);
        (number, Some((numbers, (0..numbers[2]).map(|index| field(list, index)).collect())))
    }
}

pub fn count(result: &[u8], index: u32) -> u64 {
    rulecheck_count(result, index)
}

/// Loads a table into a buffer.
pub fn load(table: &[u8], buffer: &mut [u8]) -> u32 {
    rulecheck_load_table(table, buffer.into())
}

/// Loads a copy of a table into a buffer fresh from the allocator, as `fresh_write`.
pub fn fresh_load(table: &[u8], length: usize) -> (u32, Option<Vec<u8>>) {
    fresh_write(rulecheck_load_table, table, length, table.len())
}

/// Reads a copy of a text as an instant, the fields fresh from the allocator, as `fresh_write`.
pub fn fresh_instant(text: &[u8], length: usize) -> (u32, Option<Vec<u8>>) {
    fresh_write(rulecheck_instant, text, length, RESULT_BYTES)
}

/// A function that reads one slice, and writes to the start of another where it answers 0.
type Writes = fn(&[u8], Lent<'_>) -> u32;

/// Calls one of the library's functions with a copy of an input that is exactly as long as it and a buffer fresh from the allocator: the number, and
/// the bytes at the buffer's start if they were written.
fn fresh_write(function: Writes, input: &[u8], length: usize, written: usize) -> (u32, Option<Vec<u8>>) {
    let input = input.to_vec().into_boxed_slice();
    let mut buffer = Box::<[u8]>::new_uninit_slice(length);
    let number = function(&input, Lent::from(&mut buffer[..]));
    // SAFETY: so many bytes of the buffer were written where the answer is 0.
    let found = (number == 0).then(|| unsafe { std::slice::from_raw_parts(buffer.as_ptr().cast::<u8>(), written) }.to_vec());
    (number, found)
}

pub fn field(result: &[u8], index: u32) -> u32 {
    rulecheck_field(result, index)
}

/// Whether a text is a finite number, and how many of its digits were compared.
pub fn finite(text: &[u8]) -> (bool, usize) {
    let answer = rulecheck_finite(text);
    (answer % 2 == 1, answer as usize / 2)
}

/// Reads an instant, whose fields are written.
pub fn instant(text: &[u8], fields: &mut [u8]) -> u32 {
    rulecheck_instant(text, fields.into())
}

/// A function that reads one slice and writes what it makes of it and a result.
pub type Converts = fn(&[u8], Lent<'_>, Lent<'_>) -> u32;

pub fn from_json(text: &[u8], sheet: Lent<'_>, result: Lent<'_>) -> u32 {
    rulecheck_from_json(text, sheet, result)
}

pub fn to_json(sheet: &[u8], json: Lent<'_>, result: Lent<'_>) -> u32 {
    rulecheck_to_json(sheet, json, result)
}

/// A conversion with buffers fresh from the allocator and a copy of the input, as `fresh`: what is made or the number of the refusal, and the two numbers of the result.
pub fn fresh_convert(function: Converts, input: &[u8], room: usize) -> (Converted, [u32; 2]) {
    let input = input.to_vec().into_boxed_slice();
    let [mut made, mut result] = [room, CONVERT_RESULT_BYTES].map(Box::<[u8]>::new_uninit_slice);
    let number = function(&input, Lent::from(&mut made[..]), Lent::from(&mut result[..]));
    // SAFETY: the call wrote the result, and as many bytes of what is made as that says.
    unsafe {
        let written = std::slice::from_raw_parts(result.as_ptr().cast::<u8>(), CONVERT_RESULT_BYTES);
        let numbers = [0, 1].map(|index| field(written, index));
        let made = || std::slice::from_raw_parts(made.as_ptr().cast::<u8>(), (numbers[1] as usize).min(room)).to_vec();
        (if number == 0 { Ok(made()) } else { Err(number) }, numbers)
    }
}
