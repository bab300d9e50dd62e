//! What is lent to a call: the lengths of its buffers, and what they hold before.

use super::entry::Entry;

/// One call of a case through an entry, with buffers of these lengths.
#[derive(Clone, Copy, Debug, PartialEq, Eq)]
pub struct Lent {
    pub entry: Entry,
    pub path: usize,
    pub marks: usize,
    pub result: usize,
    /// Where the result begins, so that it need not be on a boundary of four bytes.
    pub shift: usize,
    /// Which of the patterns the buffers hold before the call.
    pub pattern: usize,
}

/// Where a result is lent, and the pattern that it holds before the call.
#[derive(Clone, Copy, Debug, PartialEq, Eq)]
pub struct Slot {
    pub length: usize,
    pub shift: usize,
    pub pattern: usize,
}

impl Lent {
    pub fn slot(&self) -> Slot {
        Slot { length: self.result, shift: self.shift, pattern: self.pattern }
    }
}

/// How many of the calls that a case allows are made.
#[derive(Clone, Copy, Debug, PartialEq, Eq)]
pub enum Extent {
    /// The entry of the sheet, and at random one of the other calls.
    Some,
    /// The entry with a list of marks, and at random a short list as well.
    Marks,
    /// Each of them, so that a case that is made smaller goes on to show what it shows.
    All,
}

/// One tally, with a path buffer of that length and a result.
#[derive(Clone, Copy, Debug, PartialEq, Eq)]
pub struct TallyLent {
    pub path: usize,
    pub slot: Slot,
}

/// One call for openings, with a path buffer and a list of these lengths and a result.
#[derive(Clone, Copy, Debug, PartialEq, Eq)]
pub struct OpeningsLent {
    pub path: usize,
    pub list: usize,
    pub slot: Slot,
}

/// One check with a message, with a path buffer, a list of marks and a buffer for the message of these lengths, and a result.
#[derive(Clone, Copy, Debug, PartialEq, Eq)]
pub struct ExplainLent {
    pub path: usize,
    pub marks: usize,
    pub message: usize,
    pub slot: Slot,
}

/// One wall sheet, with a buffer of that length for the pages.
#[derive(Clone, Copy, Debug, PartialEq, Eq)]
pub struct WallLent {
    pub tally: TallyLent,
    pub pages: usize,
}

/// One conversion between JSON and a sheet, with a buffer of that length for what is made, and a result.
#[derive(Clone, Copy, Debug, PartialEq, Eq)]
pub struct ConvertLent {
    pub room: usize,
    pub slot: Slot,
}
