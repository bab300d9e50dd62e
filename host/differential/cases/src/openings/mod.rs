//! Rules and templates, and the marks of a schema that must be opened for them.

pub mod edges;
pub mod generate;
mod schemas;

use crate::case::{self, Case};
use crate::limits::{MIN_SCRATCH_WORDS, REFUSALS};
use crate::shrink;
use model::{OpeningsCall, OPENINGS_BYTES, OPENING_LIST_BYTES};

/// What a caller of `rulecheck_openings` hands over, and what is known of the answer beforehand.
#[derive(Clone, Debug, PartialEq, Eq)]
pub struct OpeningsCase {
    pub kind: u64,
    pub semantics: u64,
    pub table: Vec<u8>,
    pub schema: Vec<u8>,
    pub rule: Vec<u8>,
    pub path_len: usize,
    pub list_len: usize,
    pub result_len: usize,
    pub expect: Expect,
}

/// What is answered: number, whether there is a set, and how many marks it has; and the set.
pub type Opened = ([u32; 3], Vec<u32>);

/// What follows from the way a case was made.
#[derive(Clone, Debug, PartialEq, Eq)]
pub enum Expect {
    Anything,
    /// None of the refusals.
    Read,
    Refused(u32),
    /// There is no set.
    None,
    /// There is this set.
    Set(Vec<u32>),
    /// There is a set, and it has no other marks than these.
    Within(Vec<u32>),
}

impl Expect {
    pub fn allows(&self, (numbers, set): &Opened) -> bool {
        match self {
            Self::Anything => true,
            Self::Read => numbers[0] == 0,
            Self::Refused(number) => *numbers == [*number, 0, 0],
            Self::None => *numbers == [0, 0, 0],
            Self::Set(marks) => numbers[..2] == [0, 1] && set == marks,
            Self::Within(marks) => numbers[..2] == [0, 1] && set.iter().all(|mark| marks.contains(mark)),
        }
    }
}

impl OpeningsCase {
    /// The case of a check, but for its label, with a list that is long enough. A scratch that is too short becomes a result that is.
    pub fn of(case: &Case) -> Self {
        Self {
            kind: case.kind,
            semantics: case.semantics,
            table: case.table.clone(),
            schema: case.schema.clone(),
            rule: case.rule.clone(),
            path_len: case.path_len,
            list_len: OPENING_LIST_BYTES,
            result_len: if case.scratch_len < MIN_SCRATCH_WORDS { OPENINGS_BYTES - 1 } else { OPENINGS_BYTES },
            expect: of_check(case.expect),
        }
    }

    pub fn expecting(self, expect: Expect) -> Self {
        Self { expect, ..self }
    }

    pub fn call(&self) -> OpeningsCall<'_> {
        OpeningsCall {
            kind: self.kind,
            semantics: self.semantics,
            table: &self.table,
            schema: &self.schema,
            rule: &self.rule,
            path_len: self.path_len,
            list_len: self.list_len,
            result_len: self.result_len,
        }
    }

    /// Table, schema and rule.
    pub fn inputs(&self) -> [&[u8]; 3] {
        [&self.table, &self.schema, &self.rule]
    }

    /// The check of the same rule under that schema.
    pub fn check(&self, schema: Vec<u8>) -> Case {
        Case::new(self.kind, self.semantics, b"", schema, self.rule.clone()).under(self.table.clone())
    }

    pub fn print(&self) {
        let Self { kind, semantics, path_len, list_len, result_len, .. } = self;
        println!("kind {kind}, semantics {semantics}, a path buffer of {path_len} bytes, a list of {list_len}, a result of {result_len}");
        for (name, part) in ["table", "schema", "rule"].into_iter().zip(self.inputs()) {
            println!("{name}:\n{}", String::from_utf8_lossy(part));
        }
    }
}

/// What is known of the openings where something is known of the check. Of all defects, opening can only cure a name that a closed holder does not have.
fn of_check(expect: case::Expect) -> Expect {
    match expect {
        case::Expect::Anything | case::Expect::Number(2) => Expect::Anything,
        case::Expect::Number(0) => Expect::Set(Vec::new()),
        case::Expect::Number(number) if REFUSALS.contains(&number) => Expect::Refused(number),
        case::Expect::Detail(18, 2 | 3) | case::Expect::Detail(22, 2) => Expect::Read,
        case::Expect::Detail(..) => Expect::None,
        case::Expect::Read | case::Expect::Number(_) => Expect::Read,
    }
}

/// Smaller tables, schemas and rules.
pub fn candidates(case: &OpeningsCase) -> Vec<OpeningsCase> {
    let smaller = shrink::candidates(&case.check(case.schema.clone())).into_iter();
    smaller.map(|Case { table, schema, rule, .. }| OpeningsCase { table, schema, rule, ..case.clone() }).collect()
}
