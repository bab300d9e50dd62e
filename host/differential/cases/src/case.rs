//! One case of the comparison: what a caller hands over, and what is known of the answer beforehand.

use crate::limits::{MIN_PATH_BYTES, MIN_SCRATCH_WORDS, REFUSALS};
use model::Call;

#[derive(Clone, Debug, PartialEq, Eq)]
pub struct Case {
    pub kind: u64,
    pub semantics: u64,
    pub label: Vec<u8>,
    /// A name table; none where the case is lent none.
    pub table: Vec<u8>,
    pub schema: Vec<u8>,
    pub rule: Vec<u8>,
    pub path_len: usize,
    pub scratch_len: usize,
    pub expect: Expect,
}

/// What follows for the answer from the way a case was made.
#[derive(Clone, Copy, Debug, PartialEq, Eq)]
pub enum Expect {
    Anything,
    /// None of the refusals.
    Read,
    Number(u32),
    Detail(u32, u32),
}

impl Expect {
    pub fn allows(self, number: u32, detail: u32) -> bool {
        match self {
            Self::Anything => true,
            Self::Read => !REFUSALS.contains(&number),
            Self::Number(expected) => number == expected,
            Self::Detail(expected, fault) => (number, detail) == (expected, fault),
        }
    }
}

impl Case {
    /// A case with buffers that are wide enough, and without a table.
    pub fn new(kind: u64, semantics: u64, label: &[u8], schema: Vec<u8>, rule: Vec<u8>) -> Self {
        Self {
            kind,
            semantics,
            label: label.to_vec(),
            table: Vec::new(),
            schema,
            rule,
            path_len: MIN_PATH_BYTES,
            scratch_len: MIN_SCRATCH_WORDS,
            expect: Expect::Anything,
        }
    }

    pub fn expecting(self, expect: Expect) -> Self {
        Self { expect, ..self }
    }

    /// The case with that table lent.
    pub fn under(self, table: Vec<u8>) -> Self {
        Self { table, ..self }
    }

    pub fn call(&self) -> Call<'_> {
        Call {
            kind: self.kind,
            semantics: self.semantics,
            label: &self.label,
            table: &self.table,
            schema: &self.schema,
            rule: &self.rule,
            path_len: self.path_len,
            scratch_len: self.scratch_len,
        }
    }

    /// The case as the file `check.in` of the program `rulecheck`, in which no table has a place.
    pub fn check_in(&self) -> Vec<u8> {
        let counts = [self.label.len(), self.schema.len(), self.rule.len()].map(|count| count.to_string());
        let head = format!("{},{},{},", self.kind, self.semantics, counts.join(","));
        [head.as_bytes(), &self.label, b"\n", &self.schema, &self.rule].concat()
    }

    /// The case of a file `check.in` with settings within 64 bits; none where the file has another form.
    pub fn of_check_in(file: &[u8]) -> Option<Self> {
        let mut rest = file;
        let mut numbers = [0_u64; 5];
        for number in &mut numbers {
            let end = rest.iter().position(|byte| *byte == b',')?;
            *number = std::str::from_utf8(&rest[..end]).ok()?.parse().ok()?;
            rest = &rest[end + 1..];
        }
        let [kind, semantics, label, schema, rule] = numbers;
        let (label, rest) = rest.split_at_checked(label as usize)?;
        let (schema, rest) = rest.strip_prefix(b"\n")?.split_at_checked(schema as usize)?;
        (rest.len() as u64 == rule).then(|| Self::new(kind, semantics, label, schema.to_vec(), rest.to_vec()))
    }
}
