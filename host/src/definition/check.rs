//! The check of a place. Each is made under the empty label, and the true one is put in front of the path, so that none is too long.

use super::{Definition, Form, Place};
use crate::checks::Check;
use crate::defect::{Defect, DefectNumber, Family};
use crate::detail::{Detail, ReferenceFault};
use crate::json::Fault;
use crate::refusal::Refusal;
use crate::settings::{Kind, Reader};
use crate::sheets::SchemaSheet;
use crate::verdict::{PathVerdict, Verdict};
use crate::{check_path, check_template};

/// What a rule's path has before its condition.
const ASSERT: &str = ".assert";

/// How many checks a rule's name and message take.
const OF_NAME_AND_MESSAGE: u32 = 2;

/// The entry of a template that has its value.
const VALUE: u32 = 2;

impl Definition {
    /// What comes of one of its places, as entity-runtime would say it when the definition is registered.
    ///
    /// ```
    /// use entity_rules::Definition;
    ///
    /// let definition = Definition::read(
    ///     r#"{"entity": "e", "schema": {}, "lifecycle": {"initial": "s", "states": ["s"]},
    ///         "projections": {"by_yarn": {"key": "$fields.yarn"}}}"#,
    /// )?;
    /// let verdict = definition.check(&definition.places()[0])?;
    /// let defect = verdict.defect().ok_or("a defect")?;
    /// assert_eq!(defect.path, "projections.by_yarn");
    /// assert_eq!(defect.message, "`key`: '$fields.yarn' cannot resolve: unknown field 'yarn'");
    /// # Ok::<(), Box<dyn std::error::Error>>(())
    /// ```
    ///
    /// # Errors
    ///
    /// If the place's sheet or its schema's passes a limit, so that nothing is checked.
    pub fn check(&self, place: &Place) -> Result<Verdict, Fault> {
        let schema = match self.schema(&place.scope) {
            Some(Ok(schema)) => schema,
            Some(Err(error)) => {
                let told = format!("the schema cannot be a sheet: {error}");
                return Err(self.fault(place, told));
            }
            None => return Err(self.fault(place, "the definition has no such operation")),
        };
        let verdict = match place.form {
            Form::Key if !place.said.starts_with('$') => {
                return Ok(Verdict::Accepted { passed: 0 });
            }
            Form::Key => self.key(place, schema),
            Form::Rule | Form::Condition | Form::Template => self.sheet(place, schema),
        };
        match verdict {
            Ok(verdict) => Ok(labelled(place, verdict)),
            Err(NotChecked::Limit(fault)) => Err(fault),
            Err(NotChecked::Refused(refusal)) => Err(self.fault(place, refusal.to_string())),
        }
    }

    fn fault(&self, place: &Place, reason: impl Into<String>) -> Fault {
        Fault::new(self.text(), place.span.start, reason)
    }

    fn sheet(&self, place: &Place, schema: &SchemaSheet) -> Result<Verdict, NotChecked> {
        let sheet = place.sheet.as_ref().map_err(Clone::clone)?;
        let check = Check::new(place.kind, self.semantics(), "");
        Ok(check.run(schema, sheet)?.verdict)
    }

    /// A key: a path of the record's fields, or a name that invariants read.
    fn key(&self, place: &Place, schema: &SchemaSheet) -> Result<Verdict, NotChecked> {
        let key = place.said.as_str();
        if key.starts_with("$$") {
            place.sheet.as_ref().map_err(Clone::clone)?;
            return self.escaped(key, schema);
        }
        let verdict = self.sheet(place, schema)?;
        let Some(path) = key.strip_prefix("$fields.") else {
            return Ok(verdict);
        };
        match check_path(self.semantics(), Reader::Projection, path, schema)? {
            PathVerdict::Accepted => Ok(Verdict::Accepted { passed: 1 }),
            PathVerdict::Defect(ReferenceFault::TextCount) => {
                let counted = self.counted(path, schema)?;
                let told = format!(
                    "'{key}' cannot resolve: '{counted}' reads the length of a text, and a projection key reads object members only, so the read model would file no instance under it"
                );
                Ok(reference(ReferenceFault::TextCount, told))
            }
            PathVerdict::Defect(_) => Ok(verdict),
        }
    }

    /// A key that begins with `$$`, which no key can; a template may, and has no sentence for it. What the kind may read is said of `$` as of it.
    fn escaped(&self, key: &str, schema: &SchemaSheet) -> Result<Verdict, NotChecked> {
        let bare = b"T\nV,5,1,$\n";
        let verdict = check_template(Kind::Invariant, self.semantics(), "", schema, bare)?;
        let told = verdict.defect().map_or("", |defect| &defect.message);
        let tail = told.strip_prefix("'$'").unwrap_or(told);
        Ok(reference(
            ReferenceFault::NoSuchReference,
            format!("'{key}'{tail}"),
        ))
    }

    /// The beginning of a path that reads how long a text is.
    fn counted<'p>(&self, path: &'p str, schema: &SchemaSheet) -> Result<&'p str, NotChecked> {
        let ends = path.match_indices('.').map(|(end, _)| end);
        for end in ends.chain([path.len()]) {
            let beginning = path.get(..end).unwrap_or(path);
            let verdict = check_path(self.semantics(), Reader::Projection, beginning, schema)?;
            if verdict.fault() == Some(ReferenceFault::TextCount) {
                return Ok(beginning);
            }
        }
        Ok(path)
    }
}

/// Why a place is not checked.
enum NotChecked {
    Limit(Fault),
    Refused(Refusal),
}

impl From<Fault> for NotChecked {
    fn from(fault: Fault) -> Self {
        Self::Limit(fault)
    }
}

impl From<Refusal> for NotChecked {
    fn from(refusal: Refusal) -> Self {
        Self::Refused(refusal)
    }
}

/// A key's reference that cannot be read.
fn reference(fault: ReferenceFault, message: String) -> Verdict {
    Verdict::Defect(Defect {
        number: DefectNumber::Reference,
        family: Family::InvalidTemplate,
        detail: Detail::Reference(fault),
        place: VALUE,
        over_place: None,
        passed: 0,
        path: String::new(),
        message,
    })
}

/// The verdict with the place's own label, and without what a condition has not.
fn labelled(place: &Place, verdict: Verdict) -> Verdict {
    let label = &place.label;
    let counted = |passed: u32| match place.form {
        Form::Condition => passed.saturating_sub(OF_NAME_AND_MESSAGE),
        _ => passed,
    };
    match (verdict, place.form) {
        (Verdict::Accepted { passed }, _) => Verdict::Accepted {
            passed: counted(passed),
        },
        (Verdict::Defect(defect), Form::Key) => Verdict::Defect(Defect {
            family: Family::InvalidTemplate,
            path: label.clone(),
            message: format!("`key`: {}", defect.message),
            ..defect
        }),
        (Verdict::Defect(defect), form) => {
            let path = match form {
                Form::Condition => defect.path.strip_prefix(ASSERT).unwrap_or(&defect.path),
                _ => &defect.path,
            };
            Verdict::Defect(Defect {
                passed: counted(defect.passed),
                path: format!("{label}{path}"),
                ..defect
            })
        }
    }
}
