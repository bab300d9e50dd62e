//! Which open marks of a schema must go from 0 to 1 for a rule or template to be accepted (docs/FORMAT.md, "The fewest marks to open").

use super::call::{Call, SCRATCH_WORDS};
use super::sheets::{decode_schema, write_schema};
use super::trees::{Field, Holder, Schema};
use super::verdict::check;
use std::collections::BTreeSet;

/// Four bytes for each of 1,025 marks, as many as a schema can have.
pub const OPENING_LIST_BYTES: usize = 4_100;

/// Number, whether there is a set, and how many marks it has, four bytes each.
pub const OPENINGS_BYTES: usize = 12;

/// What a caller hands over; of the three buffers only their lengths matter.
#[derive(Clone, Copy, Debug)]
pub struct OpeningsCall<'a> {
    pub kind: u64,
    pub semantics: u64,
    pub table: &'a [u8],
    pub schema: &'a [u8],
    pub rule: &'a [u8],
    pub path_len: usize,
    pub list_len: usize,
    pub result_len: usize,
}

/// Marks by their numbers: 0 that of the arguments, 1 that of the record, any other that of the field with this entry.
type Marks = BTreeSet<u32>;

impl OpeningsCall<'_> {
    /// What a check answers under that schema. A result that is too short counts as a path buffer that is.
    fn number_under(&self, schema: &[u8]) -> u32 {
        let is_wide = self.result_len >= OPENINGS_BYTES;
        let call = Call {
            kind: self.kind,
            semantics: self.semantics,
            label: b"",
            table: self.table,
            schema,
            rule: self.rule,
            path_len: if is_wide { self.path_len } else { 0 },
            scratch_len: SCRATCH_WORDS,
        };
        check(&call).number
    }

    /// Whether the rule is accepted with these marks at 1 and all others as they are.
    fn accepts(&self, schema: &Schema, marks: &Marks) -> bool {
        self.number_under(&write_schema(&opened(schema, marks))) == 0
    }
}

/// Refusals 1, 3, 36, 37, 38, 4 and 5 in this order; then whether there is a set and how many marks it has, and the set, rising.
pub fn openings(call: &OpeningsCall) -> ([u32; 3], Vec<u32>) {
    let refused = match call.number_under(call.schema) {
        early @ (1 | 3) => early,
        _ if call.list_len < OPENING_LIST_BYTES => 36,
        late @ (37 | 38 | 4 | 5) => late,
        _ => 0,
    };
    if refused > 0 {
        return ([refused, 0, 0], Vec::new());
    }
    match least(call) {
        Some(marks) => ([0, 1, marks.len() as u32], marks.into_iter().collect()),
        None => ([0, 0, 0], Vec::new()),
    }
}

/// The set under which the rule is accepted and that is in every other such set, if there is one.
///
/// What is accepted stays accepted if more is open. So some set gives acceptance exactly if all marks together do, and a mark is in every such set
/// exactly if all others together do not.
fn least(call: &OpeningsCall) -> Option<Marks> {
    let schema = decode_schema(call.schema).expect("the sheet was not refused");
    let closed = closed_marks(&schema);
    if !call.accepts(&schema, &closed) {
        return None;
    }
    let without = |mark: &u32| {
        let mut others = closed.clone();
        others.remove(mark);
        others
    };
    let mut least = closed.clone();
    least.retain(|mark| !call.accepts(&schema, &without(mark)));
    call.accepts(&schema, &least).then_some(least)
}

/// The schema with these marks at 1.
fn opened(schema: &Schema, marks: &Marks) -> Schema {
    let mut opened = schema.clone();
    each_mark(&mut opened, &mut |number, open| {
        *open |= marks.contains(&number)
    });
    opened
}

/// The marks of a schema that are 0.
fn closed_marks(schema: &Schema) -> Marks {
    let mut closed = Marks::new();
    each_mark(&mut schema.clone(), &mut |number, open| {
        if !*open {
            closed.insert(number);
        }
    });
    closed
}

/// Every mark of a schema with its number.
fn each_mark(schema: &mut Schema, visit: &mut impl FnMut(u32, &mut bool)) {
    holder(&mut schema.record, 1, visit);
    if let Some(arguments) = &mut schema.arguments {
        holder(arguments, 0, visit);
    }
}

fn holder(held: &mut Holder, number: u32, visit: &mut impl FnMut(u32, &mut bool)) {
    visit(number, &mut held.open);
    held.fields.iter_mut().for_each(|below| field(below, visit));
}

fn field(of: &mut Field, visit: &mut impl FnMut(u32, &mut bool)) {
    visit(of.entry, &mut of.open);
    let element = of.items.as_deref_mut().into_iter();
    element
        .chain(&mut of.properties)
        .for_each(|below| field(below, visit));
}
