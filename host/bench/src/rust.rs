//! The Rust: its types built from the sheets, and its own validation of them.

use crate::reader::{rule, schemas, Rule, Schemas};
use crate::sheets::Sample;
use entity_core::validation::entry::{self, Setting};

/// A sample in the Rust's types.
#[derive(Debug, PartialEq)]
pub struct Built {
    pub schemas: Schemas,
    pub rule: Rule,
}

pub fn build(sample: &Sample) -> Option<Built> {
    Some(Built { schemas: schemas(&sample.schema)?, rule: rule(&sample.rule)? })
}

/// Whether the Rust accepts.
pub fn validate(sample: &Sample, built: &Built) -> bool {
    validates(sample, &built.schemas, &built.rule)
}

/// The same for a rule under schemas that are built.
pub fn validates(sample: &Sample, schemas: &Schemas, rule: &Rule) -> bool {
    let setting = Setting {
        kind: sample.kind,
        semantics: sample.semantics,
        fields: &schemas.fields,
        args: schemas.args.as_ref(),
        label: "rule",
        table: None,
    };
    match rule {
        Rule::Rule(rule) => entry::rule(rule, &setting),
        Rule::Template(value) => entry::template(value, &setting),
    }
    .is_ok()
}

pub fn build_and_validate(sample: &Sample) -> bool {
    build(sample).is_some_and(|built| validate(sample, &built))
}
