//! The buffers that are lent, each amid bytes that the library must not touch.

use super::entry::{numbers, Entry};
use super::lent::{ConvertLent, ExplainLent, Lent, OpeningsLent, Slot, TallyLent, WallLent};
use super::raw;
use cases::books::BookCase;
use cases::case::Case;
use cases::keys::KeyCase;
use cases::limits::MIN_PATH_BYTES;
use cases::openings::{Opened, OpeningsCase};
use cases::random::Random;
use cases::walls::{Printed, WallCase};
use cases::widens::WidensCase;
use model::{Answer, TallyNumbers, MARKS_BYTES};
use std::cell::RefCell;
use std::fmt::Debug;

/// Bytes before and after what is lent.
const AROUND: usize = 128;
const PATH_ARENA: usize = AROUND + MIN_PATH_BYTES + 2 * AROUND;
const MARKS_ARENA: usize = AROUND + MARKS_BYTES + 2 * AROUND;
const RESULT_ARENA: usize = 4 * AROUND;

/// Indexes far past every result; times four or eight they wrap to one inside it, in 32 bits.
const FAR: [u32; 6] = [1 << 29, (1 << 29) + 1, 1 << 30, (1 << 30) + 1, 3 << 30, u32::MAX];

/// Two patterns, the second the first with every bit turned, so that no byte can be written and not be seen under both.
pub struct Arena {
    patterns: [Vec<u8>; 2],
    /// Each holds the pattern of its index between calls.
    paths: [Vec<u8>; 2],
    marks: [Vec<u8>; 2],
    results: [Vec<u8>; 2],
}

impl Arena {
    pub fn new() -> Self {
        let mut random = Random::new(7);
        let first: Vec<u8> = (0..PATH_ARENA).map(|_| random.bits() as u8).collect();
        let second = first.iter().map(|byte| !byte).collect();
        let patterns = [first, second];
        let start = |length: usize| [patterns[0][..length].to_vec(), patterns[1][..length].to_vec()];
        let (marks, results) = (start(MARKS_ARENA), start(RESULT_ARENA));
        Self { paths: patterns.clone(), patterns, marks, results }
    }

    /// So many bytes of a pattern, over and over.
    fn filled(&self, pattern: usize, length: usize) -> Vec<u8> {
        let pattern = &self.patterns[pattern];
        let mut bytes = pattern.repeat(length / pattern.len());
        bytes.extend_from_slice(&pattern[..length % pattern.len()]);
        bytes
    }

    /// Makes the call. An error says what differs, and leaves the buffers as the library left them.
    pub fn call(&mut self, case: &Case, lent: &Lent, expected: &Answer, marks: &[u32]) -> Result<(), String> {
        let around = &self.patterns[lent.pattern][..AROUND];
        let (path, result, list) = (&mut self.paths[lent.pattern], &mut self.results[lent.pattern], &mut self.marks[lent.pattern]);
        let start = AROUND + lent.shift;
        let (path_lent, result_lent) = (AROUND..AROUND + lent.path, start..start + lent.result);
        let table = [around, &case.table, around].concat();
        let untouched = table.clone();
        let table_lent = &table[AROUND..AROUND + case.table.len()];
        let list_lent = &mut list[AROUND..AROUND + lent.marks];
        let number = raw::check(case, lent.entry, table_lent, &mut path[path_lent], list_lent, &mut result[result_lent.clone()]);
        if number != expected.number {
            return Err(format!("it returns {number}"));
        }
        if table != untouched {
            return Err("a byte of the table, or around it, has changed".to_owned());
        }
        fields(&result[result_lent])?;
        let count = (lent.entry == Entry::Check).then_some(marks.len() as u32);
        let told: Vec<u32> = numbers(expected).into_iter().chain(count).collect();
        self.result(&lent.slot(), &told)?;
        self.list(lent.pattern, marks)?;
        self.path(lent.pattern, expected)
    }

    /// Makes the call for an answer with its marks and message, which has a buffer of its own amid other bytes; the inputs must keep their bytes as well.
    pub fn explain(&mut self, case: &Case, lent: &ExplainLent, (expected, marks, message): (&Answer, &[u32], &[u8])) -> Result<(), String> {
        let slot = &lent.slot;
        let around = &self.patterns[slot.pattern][..AROUND];
        let inputs = [&case.label, &case.table, &case.schema, &case.rule].map(|input| [around, input, around].concat());
        let untouched = inputs.clone();
        let given = inputs.each_ref().map(|input| &input[AROUND..input.len() - AROUND]);
        let is_short = lent.message < message.len();
        let mut said = self.filled(slot.pattern, lent.message + 2 * AROUND);
        let mut wanted = said.clone();
        if !is_short {
            wanted[AROUND..AROUND + message.len()].copy_from_slice(message);
        }
        let path = &mut self.paths[slot.pattern][AROUND..AROUND + lent.path];
        let list = &mut self.marks[slot.pattern][AROUND..AROUND + lent.marks];
        let start = AROUND + slot.shift;
        let result = &mut self.results[slot.pattern][start..start + slot.length];
        let own = &mut said[AROUND..AROUND + lent.message];
        let number = raw::explain(case, given, [path, list, own, &mut *result]);
        if number != expected.number {
            return Err(format!("it returns {number}"));
        }
        fields(result)?;
        if inputs != untouched {
            return Err("a byte of its inputs, or around them, has changed".to_owned());
        }
        let more = [marks.len() as u32, if is_short { 39 } else { 0 }, message.len() as u32];
        let told: Vec<u32> = numbers(expected).into_iter().chain(more).collect();
        self.result(slot, &told)?;
        self.list(slot.pattern, marks)?;
        self.path(slot.pattern, expected)?;
        match differs(&said, &wanted) {
            Some(at) => Err(format!("byte {} of the message is {}, not {}", at as isize - AROUND as isize, said[at], wanted[at])),
            None => Ok(()),
        }
    }

    /// Makes the call for a key, whose inputs must keep their bytes as well, amid others.
    pub fn key(&mut self, case: &KeyCase, slot: &Slot, expected: &Answer) -> Result<(), String> {
        let around = &self.patterns[slot.pattern][..AROUND];
        let inputs = [&case.path, &case.schema].map(|input| [around, input, around].concat());
        let untouched = inputs.clone();
        let [path, schema] = &inputs;
        let own = |input: &[u8]| AROUND..input.len() - AROUND;
        let start = AROUND + slot.shift;
        let result = &mut self.results[slot.pattern][start..start + slot.length];
        let number = raw::key(case.semantics, case.reader, &path[own(path)], &schema[own(schema)], result);
        if number != expected.number {
            return Err(format!("it returns {number}"));
        }
        fields(result)?;
        if inputs != untouched {
            return Err("a byte of its inputs, or around them, has changed".to_owned());
        }
        self.result(slot, &numbers(expected))
    }

    /// Makes the call for two schemas, which must keep their bytes as well, amid others.
    pub fn widens(&mut self, case: &WidensCase, slot: &Slot, expected: &[u32; 7]) -> Result<(), String> {
        let around = &self.patterns[slot.pattern][..AROUND];
        let inputs = [&case.first, &case.second].map(|input| [around, input, around].concat());
        let untouched = inputs.clone();
        let [first, second] = &inputs;
        let own = |input: &[u8]| AROUND..input.len() - AROUND;
        let start = AROUND + slot.shift;
        let result = &mut self.results[slot.pattern][start..start + slot.length];
        let number = raw::widens(&first[own(first)], &second[own(second)], result);
        if number != expected[0] {
            return Err(format!("it returns {number}"));
        }
        fields(result)?;
        if inputs != untouched {
            return Err("a byte of its inputs, or around them, has changed".to_owned());
        }
        self.result(slot, expected)
    }

    /// Makes the call for a rule book, whose inputs must keep their bytes as well, amid others.
    pub fn tally(&mut self, case: &BookCase, lent: &TallyLent, expected: &TallyNumbers) -> Result<(), String> {
        self.book(case, lent, &expected.map(u64::to_le_bytes).concat(), |inputs, path, result| raw::tally(case, inputs, path, result))
    }

    /// Makes the call for a wall sheet, which has a buffer of its own for the pages, amid other bytes.
    pub fn wall(&mut self, case: &WallCase, lent: &WallLent, (numbers, pages): &Printed) -> Result<(), String> {
        let mut found = self.filled(lent.tally.slot.pattern, lent.pages + 2 * AROUND);
        let mut wanted = found.clone();
        wanted[AROUND..AROUND + pages.len()].copy_from_slice(pages);
        let own = &mut found[AROUND..AROUND + lent.pages];
        let result = numbers.map(u64::to_le_bytes).concat();
        self.book(&case.book, &lent.tally, &result, |inputs, path, result| raw::wall(case, inputs, [path, own, result]))?;
        match differs(&found, &wanted) {
            Some(at) => Err(format!("byte {} of the pages is {}, not {}", at as isize - AROUND as isize, found[at], wanted[at])),
            None => Ok(()),
        }
    }

    /// Makes a call for a book, by a function of its inputs, path buffer and result. The first number of the result is what it returns.
    fn book(
        &mut self,
        case: &BookCase,
        lent: &TallyLent,
        expected: &[u8],
        call: impl FnOnce([&[u8]; 4], &mut [u8], &mut [u8]) -> u32,
    ) -> Result<(), String> {
        let slot = &lent.slot;
        let around = &self.patterns[slot.pattern][..AROUND];
        let inputs = case.inputs().map(|input| [around, input, around].concat());
        let untouched = inputs.clone();
        let [label, table, schema, book] = &inputs;
        let own = |input: &Vec<u8>| AROUND..input.len() - AROUND;
        let given = [label, table, schema, book].map(|input| &input[own(input)]);
        let path = &mut self.paths[slot.pattern][AROUND..AROUND + lent.path];
        let start = AROUND + slot.shift;
        let result = &mut self.results[slot.pattern][start..start + slot.length];
        let number = call(given, path, result);
        if !expected.starts_with(&u64::from(number).to_le_bytes()) {
            return Err(format!("it returns {number}"));
        }
        counts(result)?;
        if inputs != untouched {
            return Err("a byte of its inputs, or around them, has changed".to_owned());
        }
        self.written(slot, expected)?;
        // After a tally or a wall sheet as much is free as a path buffer must have.
        let free = if number == 0 { MIN_PATH_BYTES } else { 0 };
        self.kept_path(slot.pattern, free)
    }

    /// Makes the call for openings, whose inputs must keep their bytes as well, amid others.
    pub fn openings(&mut self, case: &OpeningsCase, lent: &OpeningsLent, (numbers, set): &Opened) -> Result<(), String> {
        let slot = &lent.slot;
        let around = &self.patterns[slot.pattern][..AROUND];
        let inputs = case.inputs().map(|input| [around, input, around].concat());
        let untouched = inputs.clone();
        let given = inputs.each_ref().map(|input| &input[AROUND..input.len() - AROUND]);
        let path = &mut self.paths[slot.pattern][AROUND..AROUND + lent.path];
        let list = &mut self.marks[slot.pattern][AROUND..AROUND + lent.list];
        let start = AROUND + slot.shift;
        let result = &mut self.results[slot.pattern][start..start + slot.length];
        let number = raw::openings(case, given, [path, list, &mut *result]);
        if number != numbers[0] {
            return Err(format!("it returns {number}"));
        }
        fields(result)?;
        if inputs != untouched {
            return Err("a byte of its inputs, or around them, has changed".to_owned());
        }
        self.result(slot, numbers)?;
        self.list(slot.pattern, set)?;
        // After an answer as much is free as a path buffer must have.
        let free = if number == 0 { MIN_PATH_BYTES } else { 0 };
        self.kept_path(slot.pattern, free)
    }

    /// Makes a conversion, whose input must keep its bytes, amid others; so must the buffer for what is made, but for what is made.
    pub fn convert(
        &mut self,
        function: raw::Converts,
        input: &[u8],
        lent: &ConvertLent,
        expected: Result<&[u8], u32>,
    ) -> Result<(), String> {
        let slot = &lent.slot;
        let around = &self.patterns[slot.pattern][..AROUND];
        let given = [around, input, around].concat();
        let untouched = given.clone();
        let mut found = self.filled(slot.pattern, lent.room + 2 * AROUND);
        let mut wanted = found.clone();
        let made = expected.unwrap_or_default();
        wanted[AROUND..AROUND + made.len()].copy_from_slice(made);
        let start = AROUND + slot.shift;
        let result = &mut self.results[slot.pattern][start..start + slot.length];
        let own = &mut found[AROUND..AROUND + lent.room];
        let number = function(&given[AROUND..AROUND + input.len()], own.into(), (&mut *result).into());
        if number != expected.err().unwrap_or(0) {
            return Err(format!("it returns {number}"));
        }
        fields(result)?;
        if given != untouched {
            return Err("a byte of its input, or around it, has changed".to_owned());
        }
        self.result(slot, &[number, made.len() as u32])?;
        match differs(&found, &wanted) {
            Some(at) => Err(format!("byte {} of what is made is {}, not {}", at as isize - AROUND as isize, found[at], wanted[at])),
            None => Ok(()),
        }
    }

    /// Calls a function on an input, which must keep its bytes, and a buffer amid others: what is written lies at its start, and all else is as it was.
    pub fn write(
        &mut self,
        function: fn(&[u8], &mut [u8]) -> u32,
        input: &[u8],
        slot: &Slot,
        expected: u32,
        written: &[u8],
    ) -> Result<(), String> {
        let whole = &self.patterns[slot.pattern][..RESULT_ARENA];
        let given = [&whole[..AROUND], input, &whole[..AROUND]].concat();
        let untouched = given.clone();
        let start = AROUND + slot.shift;
        let mut wanted = whole.to_vec();
        wanted[start..start + written.len()].copy_from_slice(written);
        let found = &mut self.results[slot.pattern];
        let number = function(&given[AROUND..AROUND + input.len()], &mut found[start..start + slot.length]);
        if number != expected {
            return Err(format!("it returns {number}"));
        }
        if given != untouched {
            return Err("a byte of its input, or around it, has changed".to_owned());
        }
        if let Some(at) = differs(found, &wanted) {
            return Err(format!("byte {} of the buffer is {}, not {}", at as isize - start as isize, found[at], wanted[at]));
        }
        found.copy_from_slice(whole);
        Ok(())
    }

    /// The marks at the start, all else as it was; then the pattern again.
    fn list(&mut self, pattern: usize, marks: &[u32]) -> Result<(), String> {
        let bytes: Vec<u8> = marks.iter().copied().flat_map(u32::to_le_bytes).collect();
        let (whole, found) = (&self.patterns[pattern][..MARKS_ARENA], &mut self.marks[pattern]);
        let end = AROUND + bytes.len();
        if found[AROUND..end] != bytes {
            let found: Vec<u32> = (0..marks.len() as u32).map(|index| raw::field(&found[AROUND..], index)).collect();
            return Err(format!("the marks are {found:?}"));
        }
        found[AROUND..end].copy_from_slice(&whole[AROUND..end]);
        match differs(found, whole) {
            Some(at) => Err(format!("byte {} of the list is {}, not {}", at as isize - AROUND as isize, found[at], whole[at])),
            None => Ok(()),
        }
    }

    /// The numbers where there is room for all of them, all else as it was; then the pattern again.
    fn result(&mut self, slot: &Slot, expected: &[u32]) -> Result<(), String> {
        let bytes: Vec<u8> = expected.iter().copied().flat_map(u32::to_le_bytes).collect();
        self.written(slot, &bytes)
    }

    /// The same for their bytes.
    fn written(&mut self, slot: &Slot, bytes: &[u8]) -> Result<(), String> {
        let pattern = &self.patterns[slot.pattern][..RESULT_ARENA];
        let found = &mut self.results[slot.pattern];
        let mut wanted = pattern.to_vec();
        if slot.length >= bytes.len() {
            let start = AROUND + slot.shift;
            wanted[start..start + bytes.len()].copy_from_slice(bytes);
        }
        if let Some(at) = differs(found, &wanted) {
            let place = at as isize - (AROUND + slot.shift) as isize;
            return Err(format!("byte {place} of the result is {}, not {}", found[at], wanted[at]));
        }
        found.copy_from_slice(pattern);
        Ok(())
    }

    /// The path at the start, all else as it was; then the pattern again.
    fn path(&mut self, pattern: usize, expected: &Answer) -> Result<(), String> {
        let found = &self.paths[pattern][AROUND..AROUND + expected.path.len()];
        if found != expected.path {
            return Err(format!("the path is {:?}", String::from_utf8_lossy(found)));
        }
        self.kept_path(pattern, expected.path.len())
    }

    /// The path buffer as it was but for so many bytes at its start; then the pattern again.
    fn kept_path(&mut self, pattern: usize, free: usize) -> Result<(), String> {
        let (pattern, found) = (&self.patterns[pattern], &mut self.paths[pattern]);
        let end = AROUND + free;
        found[AROUND..end].copy_from_slice(&pattern[AROUND..end]);
        match differs(found, pattern) {
            Some(at) => Err(format!("byte {} of the path buffer is {}, not {}", at as isize - AROUND as isize, found[at], pattern[at])),
            None => Ok(()),
        }
    }
}

/// The first place at which two equally long slices differ.
fn differs(one: &[u8], other: &[u8]) -> Option<usize> {
    if one == other {
        return None;
    }
    one.iter().zip(other).position(|(one, other)| one != other)
}

/// Every index into a tally and past it, read by `rulecheck_count`.
fn counts(result: &[u8]) -> Result<(), String> {
    let near = 0..result.len() as u32 / 8 + 2;
    for index in near.chain(FAR) {
        let found = raw::count(result, index);
        let wanted = (index as usize).checked_mul(8).and_then(|start| result.get(start..)?.first_chunk());
        let wanted = wanted.map_or(0, |bytes| u64::from_le_bytes(*bytes));
        if found != wanted {
            return Err(format!("rulecheck_count gives {found} for index {index}, the bytes say {wanted}"));
        }
    }
    Ok(())
}

/// Every index into the result and past it, read by `rulecheck_field`.
fn fields(result: &[u8]) -> Result<(), String> {
    let near = 0..result.len() as u32 / 4 + 2;
    for index in near.chain(FAR) {
        let found = raw::field(result, index);
        let wanted = (index as usize).checked_mul(4).and_then(|start| result.get(start..start + 4));
        let wanted = wanted.map_or(0, |bytes| u32::from_le_bytes([bytes[0], bytes[1], bytes[2], bytes[3]]));
        if found != wanted {
            return Err(format!("rulecheck_field gives {found} for index {index}, the bytes say {wanted}"));
        }
    }
    Ok(())
}

thread_local! {
    static ARENA: RefCell<Arena> = RefCell::new(Arena::new());
}

/// Makes a call in the arena, which is a new one after a difference.
pub fn in_arena(
    lent: &impl Debug,
    expected: impl FnOnce() -> String,
    call: impl FnOnce(&mut Arena) -> Result<(), String>,
) -> Result<(), String> {
    ARENA.with_borrow_mut(|arena| {
        call(arena).map_err(|what| {
            *arena = Arena::new();
            format!("the library, {lent:?}: {what}; expected {}", expected())
        })
    })
}

/// A number that depends on the whole case: on its settings and on all its bytes.
pub fn mixed(settings: [u64; 2], parts: &[&[u8]]) -> u64 {
    let bytes = parts.iter().flat_map(|part| part.chunks(8)).map(|chunk| chunk.iter().fold(0, |sum, byte| sum << 8 | u64::from(*byte)));
    let mix = |sum: u64, part: u64| (sum ^ part).wrapping_mul(0x9E37_79B9_7F4A_7C15).rotate_left(29);
    mix(settings.into_iter().chain(bytes).fold(1, mix), 1)
}
