//! The trees that the two sheets describe (docs/FORMAT.md, "Sheets"). Every node that a place can name carries its entry number, from 1.

/// A schema sheet: the record, and the arguments where there are any.
#[derive(Clone, Debug, PartialEq, Eq)]
pub struct Schema {
    pub record: Holder,
    pub arguments: Option<Holder>,
}

/// The open mark and the fields of the record or of the arguments.
#[derive(Clone, Debug, PartialEq, Eq)]
pub struct Holder {
    pub open: bool,
    pub fields: Vec<Field>,
}

/// One field; an element's name is empty.
#[derive(Clone, Debug, PartialEq, Eq)]
pub struct Field {
    pub entry: u32,
    pub name: String,
    pub kind: u8,
    pub open: bool,
    pub tag: Option<String>,
    pub items: Option<Box<Field>>,
    pub properties: Vec<Field>,
}

/// A rule sheet: a rule (`R`) or a template (`T`).
#[derive(Clone, Debug, PartialEq, Eq)]
pub enum Sheet {
    Rule(Rule),
    Template(Value),
}

#[derive(Clone, Debug, PartialEq, Eq)]
pub struct Rule {
    pub name: Option<String>,
    pub message: Option<String>,
    pub condition: Condition,
}

#[derive(Clone, Debug, PartialEq, Eq)]
pub struct Condition {
    pub entry: u32,
    pub operator: Operator,
}

#[derive(Clone, Debug, PartialEq, Eq)]
pub enum Operator {
    Literal(bool),
    All(Vec<Condition>),
    Any(Vec<Condition>),
    Not(Box<Condition>),
    Exists(Value),
    /// Operators 6 to 17, by number.
    Pair(u8, Box<[Value; 2]>),
    /// The comparison, 1 to 6, and both sides.
    Compare(u8, Box<[Value; 2]>),
    Truthy(Value),
    /// Operators 20 and 21, by number.
    Quantifier {
        operator: u8,
        bind: String,
        over: Value,
        body: Box<Condition>,
    },
}

#[derive(Clone, Debug, PartialEq, Eq)]
pub struct Value {
    pub entry: u32,
    pub data: Data,
}

#[derive(Clone, Debug, PartialEq, Eq)]
pub enum Data {
    Null,
    Bool(bool),
    /// The number's text as written.
    Number(String),
    String(String),
    Array(Vec<Value>),
    Object(Vec<(String, Value)>),
}
