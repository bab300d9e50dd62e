//! One definition under both: read alike, and our defects in order are the Rust's errors of our variants in order.

use entity_core::{DefinitionError as Error, EntityDefinition, SERVICE_CONDITION_OPERATORS};
use entity_rules::Definition;
use std::collections::BTreeMap;

/// What is counted over a run.
#[derive(Default)]
pub struct Counts {
    pub read: u64,
    pub refused: u64,
    /// Read by serde alone, by a habit of its own.
    pub habits: u64,
    pub places: u64,
    pub limits: u64,
    /// Errors of the Rust that no single check covers.
    pub beyond: u64,
    /// Places that are accepted by form and kind.
    pub accepted: BTreeMap<(String, u32), u64>,
    /// Defects by form, kind, number and detail.
    pub defects: BTreeMap<(String, u32, u32, u32), u64>,
}

/// Family, path and message.
type Found = (u32, String, String);

/// The Rust's error, where its variant is one of ours.
fn ours(error: &Error) -> Option<Found> {
    let found = |family: u32, path: &String, message: String| Some((family, path.clone(), message));
    match error {
        Error::InvalidRule { message, .. } if message.starts_with("`in_state` names") => None,
        Error::InvalidRule { path, message } => found(1, path, message.clone()),
        Error::InvalidTemplate { path, message } => found(2, path, message.clone()),
        Error::SemanticsKeyNotAvailable { path, key } if SERVICE_CONDITION_OPERATORS.contains(&key.as_str()) => found(3, path, key.clone()),
        Error::ConditionTooDeep { path, depth, .. } => found(4, path, depth.to_string()),
        Error::CompareOperandNotAddressable { path, side } => found(5, path, side.to_string()),
        Error::QuantifierBindInvalid { path, bind } => found(6, path, bind.clone()),
        Error::QuantifierOverNotCollection { path, detail, .. } => found(7, path, detail.clone()),
        Error::QuantifierBodyScope { path, detail, .. } => found(8, path, detail.clone()),
        _ => None,
    }
}

/// Whether serde reads what the crate refuses by a habit that DIFFERENCES.md names: a struct as an array, a word as an object.
fn is_habit(reason: &str) -> bool {
    let struct_as_array = reason.ends_with("is an object, not an array");
    let word_as_object = reason.contains("expected one of") && reason.ends_with("not an object");
    struct_as_array || word_as_object || reason.ends_with("or an object with `moves` alone")
}

impl Counts {
    /// Compares one text, or says how the two differ.
    pub fn compare(&mut self, text: &str) -> Result<(), String> {
        let rust = serde_json::from_str::<EntityDefinition>(text);
        match (Definition::read(text), rust) {
            (Ok(own), Ok(rust)) => self.checked(&own, &rust),
            (Err(_), Err(_)) => {
                self.refused += 1;
                Ok(())
            }
            (Err(error), Ok(_)) if is_habit(&error.fault().reason) => {
                self.habits += 1;
                Ok(())
            }
            (Err(error), Ok(_)) => Err(format!("the crate refuses what serde reads: {error}")),
            (Ok(_), Err(error)) => Err(format!("serde refuses what the crate reads: {error}")),
        }
    }

    fn checked(&mut self, own: &Definition, rust: &EntityDefinition) -> Result<(), String> {
        self.read += 1;
        let mut found: Vec<Found> = Vec::new();
        for place in own.places() {
            self.places += 1;
            let (form, kind) = (place.form.to_string(), place.kind.number());
            match own.check(place) {
                Ok(verdict) => {
                    let Some(defect) = verdict.defect() else {
                        *self.accepted.entry((form, kind)).or_default() += 1;
                        continue;
                    };
                    let key = (form, kind, defect.number.number(), defect.detail.number());
                    *self.defects.entry(key).or_default() += 1;
                    found.push((defect.family.number(), defect.path.clone(), defect.message.clone()));
                }
                Err(_) => {
                    self.limits += 1;
                    return Ok(());
                }
            }
        }
        let errors = rust.validate().err().map(|errors| errors.into_vec()).unwrap_or_default();
        let expected: Vec<Found> = errors.iter().filter_map(ours).collect();
        self.beyond += (errors.len() - expected.len()) as u64;
        if found == expected {
            return Ok(());
        }
        let place = found.iter().zip(&expected).position(|(one, other)| one != other).unwrap_or(found.len().min(expected.len()));
        Err(format!("difference {place}: the crate has {:?}, the Rust {:?}", found.get(place), expected.get(place)))
    }
}
