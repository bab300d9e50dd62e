//! Which conditions of a rule are constant (docs/FORMAT.md, "Constant marks").

use super::instant::{parse, Instant};
use super::trees::{Condition, Data, Operator, Sheet, Value};

/// The marks of a rule that is accepted, in the order of the sheet: twice the entry, and 1 more if the condition is true. A template has none.
pub fn marks(sheet: &Sheet) -> Vec<u32> {
    match sheet {
        Sheet::Rule(rule) => marks_of(&rule.condition),
        Sheet::Template(_) => Vec::new(),
    }
}

fn marks_of(condition: &Condition) -> Vec<u32> {
    match &condition.operator {
        Operator::All(children) | Operator::Any(children) => {
            children.iter().flat_map(marks_of).collect()
        }
        Operator::Not(child) => marks_of(child),
        Operator::Quantifier { body, .. } => marks_of(body),
        Operator::Pair(operator, sides) => {
            let truth = constant(*operator, sides);
            truth
                .map(|truth| 2 * condition.entry + u32::from(truth))
                .into_iter()
                .collect()
        }
        _ => Vec::new(),
    }
}

/// The truth of a `before` or an `after` with two literal instants. Equal ones are neither.
fn constant(operator: u8, [left, right]: &[Value; 2]) -> Option<bool> {
    let (left, right) = (literal_instant(left)?, literal_instant(right)?);
    match operator {
        6 => Some(left < right),
        7 => Some(right < left),
        _ => None,
    }
}

fn literal_instant(value: &Value) -> Option<Instant> {
    match &value.data {
        Data::String(text) if !text.starts_with('$') => parse(text),
        _ => None,
    }
}

#[cfg(test)]
mod tests {
    use super::*;
    use crate::decode_rule;

    fn marked(rule: &str) -> Vec<u32> {
        marks(&decode_rule(rule.as_bytes()).expect("a rule"))
    }

    #[test]
    fn equal_instants_are_neither_before_nor_after() {
        for operator in [6, 7] {
            let equal = format!(
                "R,-,-,\nC,{operator},0,\nV,5,10,2024-01-01\nV,5,24,2024-01-01 00:00:00.000Z\n"
            );
            assert_eq!(marked(&equal), [4]);
        }
        assert_eq!(
            marked("R,-,-,\nC,6,0,\nV,5,10,2024-02-29\nV,5,10,2024-03-01\n"),
            [5]
        );
        assert_eq!(
            marked("R,-,-,\nC,7,0,\nV,5,10,2024-02-29\nV,5,10,2024-03-01\n"),
            [4]
        );
    }

    #[test]
    fn constants_stand_anywhere() {
        let body = "C,6,0,\nV,5,10,2024-02-29\nV,5,10,2024-03-01\n";
        let rule = format!("R,-,-,\nC,2,3,\nC,4,0,\n{body}C,20,1,b\nV,5,9,$fields.a\n{body}C,8,0,\nV,5,10,2024-02-29\nV,5,10,2024-03-01\n");
        assert_eq!(marked(&rule), [9, 19]);
    }

    #[test]
    fn other_operands_are_not_constant() {
        for other in [
            "V,5,3,$id",
            "V,5,11,$2024-01-01",
            "V,5,12,$$2024-01-01",
            "V,5,10,2024-13-01",
            "V,4,4,2024",
            "V,6,0,",
        ] {
            for sides in [[other, "V,5,10,2024-01-01"], ["V,5,10,2024-01-01", other]] {
                assert_eq!(
                    marked(&format!("R,-,-,\nC,6,0,\n{}\n{}\n", sides[0], sides[1])),
                    [],
                    "{other}"
                );
            }
        }
        assert_eq!(marked("T\nV,5,10,2024-01-01\n"), []);
    }
}
