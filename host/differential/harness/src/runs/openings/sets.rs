//! What the Rust accepts under sets of openings: under every set where there are few marks, else under those that decide.

use crate::oracle::verdict::Verdict;
use crate::oracle::{self, Frame, Schemas};
use crate::readings::openings::{closed_marks, opened, Closed};
use cases::openings::OpeningsCase;
use model::trees::Sheet;
use model::{decode_rule, decode_schema};

/// Up to so many closed marks every set of them is asked about.
const FEW: usize = 10;

/// What the Rust was asked.
#[derive(Clone, Copy, Debug, PartialEq, Eq)]
pub enum Asked {
    /// Nothing: the call was refused, or the rule has a number that stays out of the runs with the Rust.
    Nothing,
    /// Every set of so many closed marks.
    Every(usize),
    /// All marks together, the set that is answered, and for each of its marks all others.
    Some,
}

/// Whether the set is the one that the Rust accepts and that every set which it accepts contains; or that it accepts none, where no set is answered.
pub fn hold(case: &OpeningsCase, answered: Option<&[u32]>) -> Result<Asked, String> {
    let sheet = decode_rule(&case.rule).ok_or("the rule sheet was let in and cannot be read")?;
    if oracle::is_kept_out(&sheet) {
        return Ok(Asked::Nothing);
    }
    let rust = Rust { case, sheet: &sheet, closed: closed_marks(&case.schema) };
    match rust.closed.len() {
        few @ 0..=FEW => rust.every(answered).map(|()| Asked::Every(few)),
        _ => rust.some(answered).map(|()| Asked::Some),
    }
}

struct Rust<'a> {
    case: &'a OpeningsCase,
    sheet: &'a Sheet,
    closed: Vec<Closed>,
}

impl Rust<'_> {
    /// Whether it accepts the rule with those marks open that are wanted.
    fn accepts(&self, is_wanted: impl Fn(usize, &Closed) -> bool) -> Result<bool, String> {
        let marks = self.closed.iter().enumerate().filter(|(at, mark)| is_wanted(*at, mark)).map(|(_, mark)| mark);
        let schema = opened(&self.case.schema, marks);
        let schema = decode_schema(&schema).ok_or("an opened sheet cannot be read")?;
        let OpeningsCase { kind, semantics, table, .. } = self.case;
        let frame = Frame { kind: *kind, semantics: *semantics, label: "", table };
        Ok(oracle::ask(frame, &Schemas::new(&schema), self.sheet)? == Verdict::Accepted)
    }

    /// By all sets, each a number with a bit for each mark.
    fn every(&self, answered: Option<&[u32]>) -> Result<(), String> {
        let mut accepted = Vec::new();
        for set in 0..1_u32 << self.closed.len() {
            if self.accepts(|at, _| set >> at & 1 == 1)? {
                accepted.push(set);
            }
        }
        let numbers = |set: u32| -> Vec<u32> {
            let marks = self.closed.iter().enumerate().filter(|(at, _)| set >> at & 1 == 1);
            marks.map(|(_, mark)| mark.number).collect()
        };
        let common = accepted.iter().copied().reduce(|one, other| one & other);
        let least = common.filter(|common| accepted.contains(common)).map(numbers);
        if common.is_some() != least.is_some() {
            return Err("the Rust accepts some sets of openings, and none of them is in every other".to_owned());
        }
        match least.as_deref() == answered {
            true => Ok(()),
            false => Err(format!("the answer is {answered:?}, the least set that the Rust accepts is {least:?}")),
        }
    }

    /// What it accepts it also accepts if more is open (docs/FORMAT.md, "Promises"). So it accepts some set exactly if it accepts all marks together, and a mark
    /// is in every set that it accepts if it does not accept all others.
    fn some(&self, answered: Option<&[u32]>) -> Result<(), String> {
        let has_some = self.accepts(|_, _| true)?;
        if has_some != answered.is_some() {
            return Err(format!("the answer is {answered:?}, and that the Rust accepts all marks together is {has_some}"));
        }
        let Some(set) = answered else {
            return Ok(());
        };
        if !self.accepts(|_, mark| set.contains(&mark.number))? {
            return Err(format!("the Rust does not accept the set {set:?}"));
        }
        for number in set {
            if self.accepts(|_, mark| mark.number != *number)? {
                return Err(format!("the Rust accepts all marks but {number}, which is in the set {set:?}"));
            }
        }
        Ok(())
    }
}
