//! The path of a defect (docs/FORMAT.md, "Paths"): the way from the root to its place, in the Rust's spelling. It depends on label,
//! rule, number and place alone.

use super::sheets::operator_number;
use super::trees::{Condition, Data, Operator, Sheet, Value};

/// The path of the defect with this number at this entry.
pub fn path(label: &[u8], sheet: &Sheet, number: u32, place: u32) -> Vec<u8> {
    let mut way = Way {
        path: label.to_vec(),
        number,
        place,
    };
    let found = match sheet {
        Sheet::Template(value) => way.value(value),
        Sheet::Rule(_) if place == 1 => true,
        Sheet::Rule(rule) => way.under(".assert", |way| way.condition(&rule.condition)),
    };
    assert!(found, "every place is an entry of the rule");
    way.path
}

/// The operators' spelling, by number.
pub fn operator_name(operator: &Operator) -> &'static str {
    const NAMES: [&str; 21] = [
        "literal",
        "all",
        "any",
        "not",
        "exists",
        "before",
        "after",
        "eq",
        "ne",
        "gt",
        "gte",
        "lt",
        "lte",
        "in",
        "contains",
        "starts_with",
        "ends_with",
        "compare",
        "truthy",
        "for_all",
        "for_any",
    ];
    NAMES[usize::from(operator_number(operator)) - 1]
}

/// The path so far. Each search answers whether the place was found; the path is then the defect's.
struct Way {
    path: Vec<u8>,
    number: u32,
    place: u32,
}

impl Way {
    /// Searches below `piece`, which is taken back where the search fails.
    fn under(&mut self, piece: &str, search: impl FnOnce(&mut Self) -> bool) -> bool {
        let length = self.path.len();
        self.path.extend(piece.bytes());
        let found = search(self);
        if !found {
            self.path.truncate(length);
        }
        found
    }

    fn condition(&mut self, condition: &Condition) -> bool {
        let name = operator_name(&condition.operator);
        if condition.entry == self.place {
            // Defects of a quantifier's own are named below its operator.
            return if matches!(self.number, 21 | 22) {
                self.under(&format!(".{name}"), |_| true)
            } else {
                true
            };
        }
        match &condition.operator {
            Operator::Literal(_) => false,
            Operator::All(children) | Operator::Any(children) => (0..children.len()).any(|index| {
                self.under(&format!(".{name}[{index}]"), |way| {
                    way.condition(&children[index])
                })
            }),
            Operator::Not(child) => self.under(".not", |way| way.condition(child)),
            Operator::Exists(value) | Operator::Truthy(value) => {
                self.under(&format!(".{name}"), |way| way.value(value))
            }
            Operator::Pair(_, values) => (0..2).any(|index| {
                self.under(&format!(".{name}[{index}]"), |way| {
                    way.value(&values[index])
                })
            }),
            Operator::Compare(_, sides) => self.compare(sides),
            Operator::Quantifier { over, body, .. } => {
                self.under(&format!(".{name}.in"), |way| way.value(over))
                    || self.under(&format!(".{name}.that"), |way| way.condition(body))
            }
        }
    }

    /// A side that is refused as such is named by its condition's path.
    fn compare(&mut self, sides: &[Value; 2]) -> bool {
        if self.number == 17 {
            return sides.iter().any(|side| side.entry == self.place);
        }
        self.under(".compare.left", |way| way.value(&sides[0]))
            || self.under(".compare.right", |way| way.value(&sides[1]))
    }

    fn value(&mut self, value: &Value) -> bool {
        if value.entry == self.place {
            return true;
        }
        match &value.data {
            Data::Array(values) => (0..values.len())
                .any(|index| self.under(&format!("[{index}]"), |way| way.value(&values[index]))),
            Data::Object(members) => members
                .iter()
                .any(|(key, value)| self.under(&format!(".{key}"), |way| way.value(value))),
            _ => false,
        }
    }
}
