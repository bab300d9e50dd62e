//! The functions that a sheet can go to, and what each of them answers.

use cases::case::Case;
use cases::limits::{CHECK_RESULT_BYTES, RESULT_BYTES};
use model::marks::marks;
use model::{decode_rule, Answer};

/// The entry that a sheet goes to.
#[derive(Clone, Copy, Debug, PartialEq, Eq)]
pub enum Entry {
    Rule,
    Template,
    /// The one that is lent a table and a list of marks, and takes both sheets.
    Check,
}

impl Entry {
    /// The one that takes the sheet alone; a sheet of neither letter goes to either of them. A case with a table has but one.
    pub fn of(case: &Case, chance: u64) -> Self {
        match case.rule.first() {
            _ if !case.table.is_empty() => Self::Check,
            Some(b'R') => Self::Rule,
            Some(b'T') => Self::Template,
            _ if chance % 2 == 0 => Self::Rule,
            _ => Self::Template,
        }
    }

    /// The one that takes the other sheet alone.
    pub fn other(self) -> Self {
        match self {
            Self::Rule => Self::Template,
            Self::Template => Self::Rule,
            Self::Check => Self::Check,
        }
    }

    /// Those that a case can be called through.
    pub fn all(case: &Case) -> &'static [Self] {
        if case.table.is_empty() {
            &[Self::Rule, Self::Template, Self::Check]
        } else {
            &[Self::Check]
        }
    }

    /// The bytes of a result that it writes.
    pub fn result_bytes(self) -> usize {
        match self {
            Self::Rule | Self::Template => RESULT_BYTES,
            Self::Check => CHECK_RESULT_BYTES,
        }
    }

    /// The marks that it answers with.
    pub fn marks(self, case: &Case, answer: &Answer) -> Vec<u32> {
        let sheet = (self == Self::Check && answer.number == 0).then(|| decode_rule(&case.rule)).flatten();
        sheet.map_or(Vec::new(), |sheet| marks(&sheet))
    }

    /// What it answers where the entry for both sheets, all else equal, answers this.
    pub fn answer(self, case: &Case, answer: &Answer) -> Answer {
        let letters = match self {
            Self::Rule => "R",
            Self::Template => "T",
            Self::Check => "RT",
        };
        let is_taken = case.rule.first().is_some_and(|letter| letters.as_bytes().contains(letter));
        match answer.number {
            1..=4 | 37 | 38 => answer.clone(),
            _ if is_taken => answer.clone(),
            _ => Answer { number: 5, ..Answer::default() },
        }
    }
}

/// The seven numbers in their order.
pub fn numbers(answer: &Answer) -> [u32; 7] {
    let Answer { number, family, detail, place, over_place, passed, path } = answer;
    [*number, *family, *detail, *place, *over_place, *passed, path.len() as u32]
}
