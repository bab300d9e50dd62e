//! The places of a definition where a single check is made, in the order of entity-runtime.

use super::part::At;
use super::{Form, Place, Scope};
use crate::build::{Template, Value};
use crate::json::{Content, Fault, Laid, Origin, rule_from_json, walk, walk_condition, walk_value};
use crate::refusal::Refusal;
use crate::settings::{Kind, Semantics};
use crate::sheets::RuleSheet;

/// What a rule's sheet has before the value of its condition, where that is `exists` alone.
const EXISTS: &[u8] = b"R,-,-,\nC,5,0,\n";

type Walked = Result<(), Fault>;

/// Where places lie: the kind of their rules or templates, and the schema that these are checked against.
#[derive(Clone, Copy)]
struct Setting<'s> {
    kind: Kind,
    scope: &'s Scope,
}

/// The kinds of an outcome's parts.
struct Outcome {
    when: Kind,
    set: Kind,
    told: Kind,
}

const OF_CREATE: Outcome = Outcome {
    when: Kind::CreateSelector,
    set: Kind::CreateSet,
    told: Kind::CreateOutcomeTemplate,
};

const OF_OPERATION: Outcome = Outcome {
    when: Kind::OutcomeSelector,
    set: Kind::OperationTemplate,
    told: Kind::OperationTemplate,
};

pub struct Walk<'a> {
    text: &'a [u8],
    /// The record's schema.
    schema: At<'a>,
    places: Vec<Place>,
}

/// Every place of a definition.
pub fn places(text: &[u8], root: &At<'_>, semantics: Semantics) -> Result<Vec<Place>, Fault> {
    let mut walk = Walk {
        text,
        schema: root.member("schema").unwrap_or(root.clone()),
        places: Vec::new(),
    };
    walk.invariants(root)?;
    walk.projections(root);
    if let Some(create) = root.member("create") {
        walk.create(&create, semantics)?;
    }
    for (name, operation) in root.sorted("operations") {
        walk.operation(name, &operation)?;
    }
    Ok(walk.places)
}

impl Walk<'_> {
    fn invariants(&mut self, root: &At<'_>) -> Walked {
        let setting = Setting {
            kind: Kind::Invariant,
            scope: &Scope::Record,
        };
        self.rules(root, "invariants", "", setting)
    }

    fn projections(&mut self, root: &At<'_>) {
        for (name, projection) in root.sorted("projections") {
            if let Some(key) = projection.member("key") {
                let label = format!("projections.{name}");
                self.key(&key, label);
            }
        }
    }

    fn create(&mut self, create: &At<'_>, semantics: Semantics) -> Walked {
        if let Some(event) = create.option("emit") {
            let setting = Setting {
                kind: Kind::CreateTemplate,
                scope: &Scope::Record,
            };
            self.event(&event, "create.emit", setting)?;
        }
        if semantics.is_service() {
            for outcome in create.list("outcomes") {
                self.outcome(&outcome, "create", &OF_CREATE, &Scope::Create)?;
            }
        }
        Ok(())
    }

    fn operation(&mut self, name: &str, operation: &At<'_>) -> Walked {
        let label = format!("operations.{name}");
        let scope = Scope::Operation(name.to_owned());
        let setting = |kind| Setting {
            kind,
            scope: &scope,
        };
        let template = setting(Kind::OperationTemplate);
        let inner = format!("{label}.");
        self.rules(
            operation,
            "preconditions",
            &inner,
            setting(Kind::Precondition),
        )?;
        self.set(operation, &label, template)?;
        let events = match operation.member("emit") {
            Some(_) => operation.list("emit"),
            None => operation.list("emits"),
        };
        self.events(&events, &label, template)?;
        for outcome in operation.list("outcomes") {
            self.outcome(&outcome, &label, &OF_OPERATION, &scope)?;
        }
        Ok(())
    }

    fn outcome(
        &mut self,
        outcome: &At<'_>,
        holder: &str,
        kinds: &Outcome,
        scope: &Scope,
    ) -> Walked {
        let setting = |kind| Setting { kind, scope };
        let label = format!("{holder}.outcomes.{}", outcome.text("name"));
        if let Some(when) = outcome.option("when") {
            self.condition(&when, format!("{label}.when"), setting(kinds.when))?;
        }
        self.set(outcome, &label, setting(kinds.set))?;
        self.events(&outcome.list("emits"), &label, setting(kinds.told))?;
        for (field, value) in outcome.sorted("responds") {
            let label = format!("{label}.responds.{field}");
            self.template(&value, label, setting(kinds.told))?;
        }
        Ok(())
    }

    fn rules(&mut self, holder: &At<'_>, name: &str, before: &str, setting: Setting<'_>) -> Walked {
        for (index, rule) in holder.list(name).into_iter().enumerate() {
            let label = format!("{before}{name}[{index}]");
            let laid = walk(self.text, rule.part)?;
            let text = self.text.get(rule.part.span()).unwrap_or_default();
            self.push(&rule, label, Form::Rule, setting, text.to_vec(), laid)?;
        }
        Ok(())
    }

    fn condition(&mut self, when: &At<'_>, label: String, setting: Setting<'_>) -> Walked {
        let laid = walk_condition(self.text, when.part)?;
        let text = self.within(b"{\"assert\":", when, b"}");
        self.push(when, label, Form::Condition, setting, text, laid)
    }

    fn template(&mut self, value: &At<'_>, label: String, setting: Setting<'_>) -> Walked {
        let laid = walk_value(self.text, value.part)?;
        let text = self.within(b"{\"assert\":{\"exists\":", value, b"}}");
        self.push(value, label, Form::Template, setting, text, laid)
    }

    /// The text of a value between others.
    fn within(&self, before: &[u8], at: &At<'_>, after: &[u8]) -> Vec<u8> {
        let text = self.text.get(at.part.span()).unwrap_or_default();
        [before, text, after].concat()
    }

    /// A place whose sheet is made of this text by the library.
    fn push(
        &mut self,
        at: &At<'_>,
        label: String,
        form: Form,
        setting: Setting<'_>,
        text: Vec<u8>,
        laid: Laid,
    ) -> Walked {
        let start = at.part.span().start;
        let sheet = match rule_from_json(&text) {
            Ok(sheet) => Ok(shortened(form, sheet)),
            Err(error) if error.refusal() == Refusal::SheetLimit => {
                let over = laid.over.unwrap_or_else(|| {
                    Fault::new(self.text, start, "the sheet passes a limit of sheets")
                });
                Err(over)
            }
            Err(error) => return Err(Fault::new(self.text, start, error.refusal().to_string())),
        };
        self.place(at, label, form, setting, sheet, laid.origins);
        Ok(())
    }

    fn place(
        &mut self,
        at: &At<'_>,
        label: String,
        form: Form,
        setting: Setting<'_>,
        sheet: Result<RuleSheet, Fault>,
        origins: Vec<Origin>,
    ) {
        self.places.push(Place {
            label,
            pointer: at.pointer.clone(),
            span: at.part.span(),
            form,
            kind: setting.kind,
            scope: setting.scope.clone(),
            sheet,
            origins,
            said: at.part.said().to_owned(),
        });
    }

    /// What a member `set` writes: templates, and references by which fields are incremented.
    fn set(&mut self, holder: &At<'_>, label: &str, setting: Setting<'_>) -> Walked {
        for (field, value) in holder.sorted("set") {
            let label = format!("{label}.set.{field}");
            if !is_assignment(&value) {
                self.template(&value, label, setting)?;
                continue;
            }
            let amount = value.member("increment");
            let amount = amount.filter(|_| value.part.members().count() == 1);
            let is_read = |amount: &At<'_>| {
                setting.kind == Kind::OperationTemplate && is_reference(amount) && self.adds(field)
            };
            if let Some(amount) = amount.filter(is_read) {
                self.template(&amount, format!("{label}.increment"), setting)?;
            }
        }
        Ok(())
    }

    /// Whether a field can be incremented: it is a number that is always there.
    fn adds(&self, field: &str) -> bool {
        let fields = self.schema.member("fields");
        fields
            .and_then(|fields| fields.member(field))
            .is_some_and(|field| {
                matches!(field.text("type"), "integer" | "number") && field.is_true("required")
            })
    }

    fn events(&mut self, events: &[At<'_>], label: &str, setting: Setting<'_>) -> Walked {
        for (index, event) in events.iter().enumerate() {
            self.event(event, &format!("{label}.emits[{index}]"), setting)?;
        }
        Ok(())
    }

    /// The payload of an event, unless its type is blank.
    fn event(&mut self, event: &At<'_>, label: &str, setting: Setting<'_>) -> Walked {
        if event.text("type").trim().is_empty() {
            return Ok(());
        }
        let label = format!("{label}.payload");
        match event.member("payload") {
            Some(payload) => self.template(&payload, label, setting),
            None => {
                let origin = Origin {
                    span: event.part.span(),
                    texts: [None, None],
                };
                let sheet = RuleSheet::new(b"T\nV,7,0,\n".to_vec());
                let origins = vec![origin.clone(), origin];
                self.place(event, label, Form::Template, setting, Ok(sheet), origins);
                Ok(())
            }
        }
    }

    /// The key of a projection, whose sheet is that of a template.
    fn key(&mut self, key: &At<'_>, label: String) {
        let span = key.part.span();
        let sheet = Template::new(Value::string(key.part.said())).sheet();
        let sheet = sheet.map_err(|error| Fault::new(self.text, span.start, error.to_string()));
        let setting = Setting {
            kind: Kind::Invariant,
            scope: &Scope::Record,
        };
        let text = Some(span.clone());
        let origins = [[None, None], [text, None]].map(|texts| Origin {
            span: span.clone(),
            texts,
        });
        self.place(key, label, Form::Key, setting, sheet, origins.to_vec());
    }
}

/// The sheet of a place: a template's has the value alone.
fn shortened(form: Form, sheet: RuleSheet) -> RuleSheet {
    match sheet.strip_prefix(EXISTS) {
        Some(value) if form == Form::Template => RuleSheet::new([b"T\n", value].concat()),
        _ => sheet,
    }
}

/// Whether a value of `set` is an assignment of another sort than a template.
fn is_assignment(value: &At<'_>) -> bool {
    let mut names = value.part.members().map(|(key, _)| key.said());
    let is_empty = value.part.members().next().is_none();
    !is_empty && names.all(|name| matches!(name, "increment" | "cleared"))
}

fn is_reference(value: &At<'_>) -> bool {
    match value.part.content() {
        Content::String(text) => text.starts_with('$') && !text.starts_with("$$"),
        _ => false,
    }
}
