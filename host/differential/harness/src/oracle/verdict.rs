//! What the Rust answers.

/// What the Rust answers, in the numbers of docs/FORMAT.md.
#[derive(Clone, Debug, PartialEq, Eq)]
pub enum Verdict {
    Accepted,
    Defect(Defect),
}

#[derive(Clone, Debug, PartialEq, Eq)]
pub struct Defect {
    pub number: u32,
    pub family: u32,
    pub detail: u32,
    pub path: String,
    /// The raw field of the variant that says what is wrong, as the Rust has it.
    pub message: String,
    /// What the Rust quotes of the entry at fault, to be compared with the entry at the place.
    pub quoted: Quoted,
    /// Family 8: the text of the quantifier's `in`, to be compared with the entry at the over place.
    pub over: Option<String>,
}

/// The part of the rule that a message quotes, which tells where the defect was found.
#[derive(Clone, Debug, PartialEq, Eq)]
pub enum Quoted {
    Nothing,
    /// A string as it is in the rule.
    Text(String),
    /// A value as compact JSON.
    Json(String),
    /// The operator's spelling.
    Operator(String),
    /// The depth of the whole condition.
    Depth(usize),
    /// A quantifier's bind.
    Bind(String),
    /// A quantifier's `in`: the text, or compact JSON of what is not a string.
    Over(String),
    /// A side of `compare`, by the detail alone.
    Side,
}
