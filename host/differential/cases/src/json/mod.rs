//! Rules as JSON texts, and rule sheets that are to be written as JSON.

pub mod edges;
pub mod generate;
mod limits;
pub mod published;
mod shapes;
mod style;
mod trees;

use model::Converted;

/// A text to make a sheet of, and what is known of the answer beforehand.
#[derive(Clone, Debug, PartialEq, Eq)]
pub struct TextCase {
    pub text: Vec<u8>,
    pub expect: Expect,
}

/// What follows from the way a text was made, with a buffer that has room.
#[derive(Clone, Debug, PartialEq, Eq)]
pub enum Expect {
    Anything,
    /// A refusal.
    Number(u32),
    Sheet(Vec<u8>),
}

impl Expect {
    pub fn allows(&self, answer: &Converted) -> bool {
        match self {
            Self::Anything => true,
            Self::Number(number) => *answer == Err(*number),
            Self::Sheet(sheet) => answer.as_ref() == Ok(sheet),
        }
    }
}

impl TextCase {
    pub fn new(text: impl Into<Vec<u8>>, expect: Expect) -> Self {
        Self { text: text.into(), expect }
    }
}

/// What leaving out a part of some bytes leads to, large parts first.
pub fn shorter(bytes: &[u8]) -> Vec<Vec<u8>> {
    let sizes = std::iter::successors(Some(bytes.len() / 2), |size| Some(size / 2)).take_while(|size| *size > 0);
    // Of a long text the large parts alone are tried, until it is a short one.
    let sizes = sizes.filter(|size| bytes.len() / size <= 256);
    let without = |start: usize, size: usize| [&bytes[..start], &bytes[(start + size).min(bytes.len())..]].concat();
    sizes.flat_map(|size| (0..bytes.len()).step_by(size).map(move |start| without(start, size))).collect()
}
