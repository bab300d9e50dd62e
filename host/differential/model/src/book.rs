//! Rule books (docs/FORMAT.md, "Rule books"): a file of sheets, and the tally of what checks of them answer.

use super::call::{Answer, Call, SCRATCH_WORDS};
use super::program::{bytes, numeral};
use super::verdict::check;

/// Number, read, accepted, refused by 4, refused by 5, the counts of 11 to 22, checks passed.
pub type TallyNumbers = [u64; 18];

/// Eight bytes for each number.
pub const TALLY_BYTES: usize = 144;

/// What a caller hands over; of the two buffers only their lengths matter.
#[derive(Clone, Copy, Debug)]
pub struct BookCall<'a> {
    pub kind: u64,
    pub semantics: u64,
    pub label: &'a [u8],
    pub table: &'a [u8],
    pub schema: &'a [u8],
    pub book: &'a [u8],
    pub path_len: usize,
    pub result_len: usize,
}

impl<'a> BookCall<'a> {
    /// The check of one sheet alone. A result under so many bytes counts as a path buffer that is too short.
    fn single(&self, sheet: &'a [u8], result_bytes: usize) -> Call<'a> {
        Call {
            kind: self.kind,
            semantics: self.semantics,
            label: self.label,
            table: self.table,
            schema: self.schema,
            rule: sheet,
            path_len: if self.result_len < result_bytes {
                0
            } else {
                self.path_len
            },
            scratch_len: SCRATCH_WORDS,
        }
    }
}

/// The sheets of a file: each after its byte length, a numeral without leading zeros, and a comma, with nothing between them or after the last.
pub fn sheets(file: &[u8]) -> Option<Vec<&[u8]>> {
    let mut sheets = Vec::new();
    let mut rest = file;
    while !rest.is_empty() {
        let (length, behind) = numeral(rest)?;
        let (sheet, others) = bytes(behind, length)?;
        sheets.push(sheet);
        rest = others;
    }
    Some(sheets)
}

/// The file of these sheets.
pub fn write_book(sheets: &[impl AsRef<[u8]>]) -> Vec<u8> {
    let mut file = Vec::new();
    for sheet in sheets {
        let sheet = sheet.as_ref();
        file.extend(format!("{},", sheet.len()).bytes());
        file.extend(sheet);
    }
    file
}

/// Refusals 1, 2, 3, 34, the one that is due for so many sheets, 37 and 38 in this order; then what a check of each sheet answers.
pub(super) fn answers(
    call: &BookCall,
    result_bytes: usize,
    due: impl Fn(usize) -> Result<(), u32>,
) -> Result<Vec<Answer>, u32> {
    let refused = check(&call.single(b"", result_bytes)).number;
    if matches!(refused, 1..=3) {
        return Err(refused);
    }
    let sheets = sheets(call.book).ok_or(34_u32)?;
    due(sheets.len())?;
    if matches!(refused, 37 | 38) {
        return Err(refused);
    }
    Ok(sheets
        .into_iter()
        .map(|sheet| check(&call.single(sheet, result_bytes)))
        .collect())
}

pub fn tally(call: &BookCall) -> TallyNumbers {
    let mut numbers = [0; 18];
    match answers(call, TALLY_BYTES, |_| Ok(())) {
        Err(refused) => numbers[0] = refused.into(),
        Ok(answers) => {
            for answer in &answers {
                count(&mut numbers, answer);
            }
        }
    }
    numbers
}

/// Counts one more answer.
pub fn count(numbers: &mut TallyNumbers, answer: &Answer) {
    let index = match answer.number {
        0 => 2,
        4 => 3,
        5 => 4,
        defect => defect as usize - 6,
    };
    numbers[1] += 1;
    numbers[index] += 1;
    numbers[17] += u64::from(answer.passed);
}
