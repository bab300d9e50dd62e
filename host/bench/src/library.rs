//! The library through its C functions.

use crate::functions::{
    rulecheck_check, rulecheck_count, rulecheck_explain, rulecheck_field, rulecheck_from_json, rulecheck_openings, rulecheck_rule,
    rulecheck_tally, rulecheck_template, rulecheck_to_json, rulecheck_widens, Lent,
};
use crate::sheets::Sample;

/// What a caller lends for a path, for marks, for a message and for openings, and where the numbers of a check or of a tally go.
pub struct Buffers {
    path: Vec<u8>,
    marks: Vec<u8>,
    message: Vec<u8>,
    openings: Vec<u8>,
    result: [u8; 40],
    tally: [u8; 144],
}

impl Buffers {
    pub fn new() -> Self {
        let [path, marks, message, openings] = [32_768, 8_192, 200_000, 4_100].map(|length| vec![0; length]);
        Self { path, marks, message, openings, result: [0; 40], tally: [0; 144] }
    }
}

// Two that only the library of the benchmark has.
extern "C" {
    fn acceptance_schema(sheet: *const u8, length: usize) -> u32;
    fn acceptance_rule(sheet: *const u8, length: usize) -> u32;
}

/// One whole check; the answer is the number.
pub fn check(sample: &Sample, buffers: &mut Buffers) -> u32 {
    let entry = if sample.rule.starts_with(b"R") { rulecheck_rule } else { rulecheck_template };
    let [path, result] = [&mut buffers.path[..], &mut buffers.result].map(Lent::from);
    entry(sample.kind, sample.semantics, b"rule", &sample.schema, &sample.rule, path, result)
}

/// A whole book under the settings and the schema of a sample; the answer is how many of its sheets are accepted.
pub fn tally(sample: &Sample, book: &[u8], buffers: &mut Buffers) -> u64 {
    let [path, result] = [&mut buffers.path[..], &mut buffers.tally].map(Lent::from);
    rulecheck_tally(sample.kind, sample.semantics, b"rule", b"", &sample.schema, book, path, result);
    rulecheck_count(&buffers.tally, 2)
}

/// One whole check that marks constant conditions, under the stock table; the answer is the number.
pub fn mark(sample: &Sample, buffers: &mut Buffers) -> u32 {
    let [path, marks, result] = [&mut buffers.path[..], &mut buffers.marks, &mut buffers.result].map(Lent::from);
    rulecheck_check(sample.kind, sample.semantics, b"rule", b"", &sample.schema, &sample.rule, path, marks, result)
}

/// One whole check that marks constant conditions and writes a defect's message, under the stock table; the answer is the number, and the message's length.
pub fn explain(sample: &Sample, buffers: &mut Buffers) -> (u32, u32) {
    let lent = [&mut buffers.path[..], &mut buffers.marks, &mut buffers.message, &mut buffers.result];
    let [path, marks, message, result] = lent.map(Lent::from);
    let number = rulecheck_explain(sample.kind, sample.semantics, b"rule", b"", &sample.schema, &sample.rule, path, marks, message, result);
    (number, rulecheck_field(&buffers.result, 9))
}

/// The fewest marks to open, under the stock table; the answer is how many there are, none where no opening helps or a sheet is refused.
pub fn openings(sample: &Sample, buffers: &mut Buffers) -> Option<u32> {
    let [path, list, result] = [&mut buffers.path[..], &mut buffers.openings, &mut buffers.result].map(Lent::from);
    let number = rulecheck_openings(sample.kind, sample.semantics, b"", &sample.schema, &sample.rule, path, list, result);
    let field = |index| rulecheck_field(&buffers.result, index);
    (number == 0 && field(1) == 1).then(|| field(2))
}

/// What a caller lends for a sheet or for JSON, and where the numbers of a conversion go.
pub struct Conversion {
    made: Vec<u8>,
    result: [u8; 8],
}

impl Conversion {
    /// No sheet has more than 30,000 bytes, of which a byte of a text has six in JSON.
    pub fn new() -> Self {
        Self { made: vec![0; 200_000], result: [0; 8] }
    }

    fn length(&self) -> usize {
        rulecheck_field(&self.result, 1) as usize
    }
}

/// The sheet of a JSON text; the answer is the number, and the sheet's length.
pub fn from_json(text: &[u8], made: &mut Conversion) -> (u32, usize) {
    let number = rulecheck_from_json(text, Lent::from(&mut made.made[..30_000]), Lent::from(&mut made.result[..]));
    (number, made.length())
}

/// The JSON of a rule sheet; the answer is the number, and the text's length.
pub fn to_json(sheet: &[u8], made: &mut Conversion) -> (u32, usize) {
    let number = rulecheck_to_json(sheet, Lent::from(&mut made.made[..]), Lent::from(&mut made.result[..]));
    (number, made.length())
}

/// Whether a schema sheet, or a rule sheet, is well formed.
pub fn accepts(sheet: &[u8]) -> bool {
    // SAFETY: the pointer and the length are those of a slice, which both functions only read.
    let answer = unsafe {
        match sheet.first() {
            Some(b'H') => acceptance_schema(sheet.as_ptr(), sheet.len()),
            _ => acceptance_rule(sheet.as_ptr(), sheet.len()),
        }
    };
    answer == 1
}

/// The answer about two schemas: 1 or 2 where the second is a widening of the first, 3 where it is none.
pub fn widens(first: &[u8], second: &[u8]) -> u32 {
    let mut result = [0u8; 28];
    rulecheck_widens(first, second, Lent::from(&mut result[..]));
    u32::from_le_bytes([result[4], result[5], result[6], result[7]])
}
