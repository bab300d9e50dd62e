//! When one schema is a widening of another (docs/FORMAT.md, "Widening").

use super::sheets::decode_schema;
use super::trees::{Field, Schema};

/// What may change from the first schema to the second.
#[derive(Clone, Copy, PartialEq, Eq)]
enum Level {
    /// Open marks from 0 to 1.
    Marks,
    /// Also more fields under holders that are closed in the first, and arguments that appear.
    Any,
}

/// Whether the second schema is a widening of the first.
pub fn is_widening(first: &Schema, second: &Schema) -> bool {
    schemas(Level::Any, first, second)
}

/// Whether the two differ at most in open marks gone from 0 to 1, with arguments in both or in neither.
pub fn only_marks_opened(first: &Schema, second: &Schema) -> bool {
    schemas(Level::Marks, first, second)
}

fn schemas(level: Level, first: &Schema, second: &Schema) -> bool {
    let arguments = match (&first.arguments, &second.arguments) {
        (None, None) => true,
        (None, Some(_)) => level == Level::Any,
        (Some(_), None) => false,
        (Some(one), Some(two)) => holders(level, (one.open, &one.fields), (two.open, &two.fields)),
    };
    let (one, two) = (&first.record, &second.record);
    arguments && holders(level, (one.open, &one.fields), (two.open, &two.fields))
}

/// A holder's open mark and the fields under it, its element aside.
type Held<'t> = (bool, &'t [Field]);

fn holders(level: Level, (first_open, first): Held, (second_open, second): Held) -> bool {
    let kept = |field: &Field| {
        second
            .iter()
            .any(|other| other.name == field.name && fields(level, field, other))
    };
    let mark = second_open || !first_open;
    let may_hold_more = level == Level::Any && !first_open;
    mark && (may_hold_more || first.len() == second.len()) && first.iter().all(kept)
}

fn fields(level: Level, first: &Field, second: &Field) -> bool {
    let elements = match (&first.items, &second.items) {
        (None, None) => true,
        (Some(one), Some(two)) => fields(level, one, two),
        _ => false,
    };
    elements
        && first.name == second.name
        && first.kind == second.kind
        && first.tag == second.tag
        && holders(
            level,
            (first.open, &first.properties),
            (second.open, &second.properties),
        )
}

/// The bytes that a result must have.
pub const RESULT_BYTES: usize = 28;

/// What `rulecheck_widens` answers about two sheets: seven numbers, of which the last two are 0.
pub fn widens(first: &[u8], second: &[u8], result_len: usize) -> [u32; 7] {
    if result_len < RESULT_BYTES {
        return [3, 0, 0, 0, 0, 0, 0];
    }
    let Some(first) = decode_schema(first) else {
        return [4, 1, 0, 0, 0, 0, 0];
    };
    let Some(second) = decode_schema(second) else {
        return [4, 2, 0, 0, 0, 0, 0];
    };
    match first_breach(&first, &second) {
        Some(breach) => [0, 3, breach.reason, breach.first, breach.second, 0, 0],
        None if only_marks_opened(&first, &second) => [0, 1, 0, 0, 0, 0, 0],
        None => [0, 2, 0, 0, 0, 0, 0],
    }
}

/// Something that a widening does not do, with its entry in each sheet, 0 where it has none.
#[derive(Clone, Copy, Debug, PartialEq, Eq, PartialOrd, Ord)]
pub struct Breach {
    pub reason: u32,
    pub first: u32,
    pub second: u32,
}

const MISSING: u32 = 1;
const KIND: u32 = 2;
const ITEMS: u32 = 3;
const TAG: u32 = 4;
const CLOSED: u32 = 5;
const ADDED: u32 = 6;
const ARGUMENTS_GONE: u32 = 7;

/// The first breach in the order of the first sheet: all of them are found, in no order, each with its place, and the least place wins.
pub fn first_breach(first: &Schema, second: &Schema) -> Option<Breach> {
    let mut found = Breaches::default();
    found.schemas(first, second);
    found.0.into_iter().min().map(|(_, breach)| breach)
}

/// A step on the way to a breach. Steps at one level are of one kind, and compare as the format orders what they lead to.
#[derive(Clone, Debug, PartialEq, Eq, PartialOrd, Ord)]
enum Step {
    /// The parts of the sheet: 0 the head, 1 the record's fields, 2 those of the arguments.
    Part(u8),
    /// What the head says: 0 the record's mark, 1 that there are arguments, 2 their mark.
    Head(u8),
    /// Whose name comes first among the members of one holder.
    Name(Vec<u8>),
    /// Of a field: 0 what its own entry says, 1 its element, 2 its properties.
    Of(u8),
    /// What an entry says: 0 that it is there, 1 its kind, 2 its open mark, 3 its items mark, 4 its tag.
    Says(u8),
}

type Place = Vec<Step>;

/// Breaches with their places.
#[derive(Default)]
struct Breaches(Vec<(Place, Breach)>);

impl Breaches {
    fn add(&mut self, at: &[Step], step: Step, reason: u32, first: u32, second: u32) {
        let place = [at, &[step]].concat();
        self.0.push((
            place,
            Breach {
                reason,
                first,
                second,
            },
        ));
    }

    fn schemas(&mut self, first: &Schema, second: &Schema) {
        let (one, two) = (&first.record, &second.record);
        let head = [Step::Part(0)];
        if one.open && !two.open {
            self.add(&head, Step::Head(0), CLOSED, 1, 1);
        }
        self.members(&[Step::Part(1)], (one.open, &one.fields), &two.fields);
        match (&first.arguments, &second.arguments) {
            (Some(_), None) => self.add(&head, Step::Head(1), ARGUMENTS_GONE, 1, 0),
            (Some(one), Some(two)) => {
                if one.open && !two.open {
                    self.add(&head, Step::Head(2), CLOSED, 1, 1);
                }
                self.members(&[Step::Part(2)], (one.open, &one.fields), &two.fields);
            }
            (None, _) => {}
        }
    }

    fn members(&mut self, at: &[Step], (first_open, first): Held, second: &[Field]) {
        for field in first {
            let at = [at, &[Step::Name(field.name.as_bytes().to_vec())]].concat();
            match second.iter().find(|other| other.name == field.name) {
                Some(other) => self.fields(&at, field, other),
                None => self.add(&at, Step::Says(0), MISSING, field.entry, 0),
            }
        }
        for field in second {
            let is_new = !first.iter().any(|other| other.name == field.name);
            if is_new && first_open {
                let at = [at, &[Step::Name(field.name.as_bytes().to_vec())]].concat();
                self.add(&at, Step::Says(0), ADDED, 0, field.entry);
            }
        }
    }

    fn fields(&mut self, at: &[Step], first: &Field, second: &Field) {
        let own = [at, &[Step::Of(0)]].concat();
        let entries = (first.entry, second.entry);
        for (says, differs, reason) in [
            (1, first.kind != second.kind, KIND),
            (2, first.open && !second.open, CLOSED),
            (3, first.items.is_some() != second.items.is_some(), ITEMS),
            (4, first.tag != second.tag, TAG),
        ] {
            if differs {
                self.add(&own, Step::Says(says), reason, entries.0, entries.1);
            }
        }
        if let (Some(one), Some(two)) = (&first.items, &second.items) {
            self.fields(&[at, &[Step::Of(1)]].concat(), one, two);
        }
        let held = (first.open, first.properties.as_slice());
        self.members(&[at, &[Step::Of(2)]].concat(), held, &second.properties);
    }
}
