//! Definitions of entity-runtime (docs/DEFINITIONS.md): what they hold for single checks.

mod check;
mod part;
mod places;
mod schema;
mod shape;

use crate::build::BuildError;
use crate::json::{Fault, Origin, Tree};
use crate::numbered::numbered;
use crate::settings::{Kind, Semantics};
use crate::sheets::{RuleSheet, SchemaSheet};
use part::At;
use std::collections::BTreeMap;
use std::fmt;
use std::ops::Range;

/// A definition of entity-runtime, as its JSON file has it: its schemas as schema sheets, and the places where entity-runtime makes a single check when it registers it.
///
/// ```
/// use entity_rules::Definition;
///
/// let definition = Definition::read(
///     r#"{"entity": "pattern", "lifecycle": {"initial": "drawn", "states": ["drawn"]},
///         "schema": {"fields": {"bars": {"type": "integer"}}},
///         "invariants": [{"assert": {"gt": ["$fields.bars", 0]}}, {"assert": {"exists": "$fields.bar"}}]}"#,
/// )?;
/// let [first, second] = definition.places() else { panic!("two rules") };
/// assert!(definition.check(first)?.is_accepted());
/// let verdict = definition.check(second)?;
/// let defect = verdict.defect().ok_or("a defect")?;
/// assert_eq!(defect.path, "invariants[1].assert.exists");
/// assert_eq!(defect.message, "'$fields.bar' cannot resolve: unknown field 'bar'");
/// # Ok::<(), Box<dyn std::error::Error>>(())
/// ```
#[derive(Clone, Debug, PartialEq, Eq)]
pub struct Definition {
    text: Vec<u8>,
    entity: String,
    version: u32,
    semantics: Semantics,
    record: Sheet,
    create: Sheet,
    operations: BTreeMap<String, Sheet>,
    places: Vec<Place>,
}

type Sheet = Result<SchemaSheet, BuildError>;

/// Which arguments there are at a place.
///
/// ```
/// use entity_rules::Scope;
///
/// assert_eq!(Scope::Operation("release".to_owned()).to_string(), "operations.release");
/// ```
#[derive(Clone, Debug, PartialEq, Eq, Hash)]
pub enum Scope {
    /// None: the record alone.
    Record,
    /// Those of the creation.
    Create,
    /// Those of the operation of this name.
    Operation(String),
}

impl fmt::Display for Scope {
    fn fmt(&self, f: &mut fmt::Formatter<'_>) -> fmt::Result {
        match self {
            Self::Record => f.pad("schema"),
            Self::Create => f.pad("create"),
            Self::Operation(name) => write!(f, "operations.{name}"),
        }
    }
}

numbered! {
    /// What is at a place.
    ///
    /// ```
    /// assert_eq!(entity_rules::Form::Condition.to_string(), "condition");
    /// ```
    Form {
        /// A rule, with a name and a message if it has them.
        Rule = 1, "rule";
        /// A bare condition, `when` of an outcome.
        Condition = 2, "condition";
        /// A value with references.
        Template = 3, "template";
        /// The key of a projection.
        Key = 4, "key";
    }
}

/// A place of a definition where a single check is made.
///
/// ```
/// use entity_rules::{Definition, Form, Kind, Scope};
///
/// let text = r#"{"entity": "e", "schema": {}, "lifecycle": {"initial": "s", "states": ["s"]}, "operations":
///     {"cut/sew": {"emits": [{"type": "Cut", "payload": {"by": "$args.by"}}]}}}"#;
/// let definition = Definition::read(text)?;
/// let place = definition.places().first().ok_or("a place")?;
/// assert_eq!(place.label, "operations.cut/sew.emits[0].payload");
/// assert_eq!(place.pointer, "/operations/cut~1sew/emits/0/payload");
/// assert_eq!(&text[place.span.clone()], r#"{"by": "$args.by"}"#);
/// assert_eq!((place.form, place.kind), (Form::Template, Kind::OperationTemplate));
/// assert_eq!(place.scope, Scope::Operation("cut/sew".to_owned()));
/// assert_eq!(place.sheet, Ok(entity_rules::Template::new(entity_rules::Value::object([("by", "$args.by")])).sheet()?));
/// # Ok::<(), Box<dyn std::error::Error>>(())
/// ```
#[derive(Clone, Debug, PartialEq, Eq)]
#[non_exhaustive]
pub struct Place {
    /// What entity-runtime calls it, which its paths begin with.
    pub label: String,
    /// The way to it in the file (RFC 6901); where an event has no payload, the way to the event.
    pub pointer: String,
    /// Its bytes in the file.
    pub span: Range<usize>,
    /// What is there.
    pub form: Form,
    /// Which names it may read. A key may read those of an invariant.
    pub kind: Kind,
    /// Which schema it is checked against.
    pub scope: Scope,
    /// Its sheet, or the limit of sheets that it passes. A condition's sheet is that of a rule without name and message, a key's that of a template.
    pub sheet: Result<RuleSheet, Fault>,
    /// Where in the file the entries of its sheet come from.
    pub origins: Vec<Origin>,
    /// The text of a key.
    said: String,
}

/// Where a text stops being a definition, and why.
///
/// ```
/// use entity_rules::Definition;
///
/// let error = Definition::read("{\"entity\": \"e\",\n \"invariant\": []}").unwrap_err();
/// assert_eq!(error.to_string(), "line 2, column 2: a definition has no member \"invariant\"; did you mean `invariants`?");
/// ```
#[derive(Clone, Debug, PartialEq, Eq, Hash)]
pub struct DefinitionError {
    fault: Fault,
}

impl DefinitionError {
    /// Where in the text, and why.
    ///
    /// ```
    /// let error = entity_rules::Definition::read("[]").unwrap_err();
    /// assert_eq!(error.fault().reason, "a definition is an object, not an array");
    /// ```
    #[must_use]
    pub const fn fault(&self) -> &Fault {
        &self.fault
    }
}

impl fmt::Display for DefinitionError {
    fn fmt(&self, f: &mut fmt::Formatter<'_>) -> fmt::Result {
        self.fault.fmt(f)
    }
}

impl std::error::Error for DefinitionError {}

impl From<Fault> for DefinitionError {
    fn from(fault: Fault) -> Self {
        Self { fault }
    }
}

impl Definition {
    /// Reads a definition from its JSON text.
    ///
    /// Members that entity-runtime does not know are refused, wherever they are, and null is as good as absent only where entity-runtime takes it so. A limit of sheets
    /// is no error here: the place or the schema that passes it says so.
    ///
    /// ```
    /// # use entity_rules::Definition;
    /// let least = r#"{"entity": "e", "schema": {}, "lifecycle": {"initial": "s", "states": ["s"]}}"#;
    /// assert!(Definition::read(least)?.places().is_empty());
    /// # Ok::<(), entity_rules::DefinitionError>(())
    /// ```
    ///
    /// # Errors
    ///
    /// If the text is not JSON, or not of the shape of a definition; every rule and condition must be of its own.
    pub fn read(text: impl AsRef<[u8]>) -> Result<Self, DefinitionError> {
        let text = text.as_ref();
        let tree = Tree::read(text)?;
        shape::look(text, &tree)?;
        let root = At::root(tree.root());
        let semantics = match root.member("semantics") {
            Some(name) => name.part.said().parse().unwrap_or(Semantics::Kernel1),
            None => Semantics::Kernel1,
        };
        let record = schema::record(&root.member("schema").unwrap_or(root.clone()));
        let with = |holder: Option<&At<'_>>| {
            let arguments = holder.and_then(|holder| holder.member("arguments"));
            schema::with_arguments(&record, arguments.as_ref()).sheet()
        };
        let operations = root.sorted("operations");
        Ok(Self {
            entity: root.text("entity").to_owned(),
            version: root.text("version").parse().unwrap_or(1),
            semantics,
            record: record.sheet(),
            create: with(root.member("create").as_ref()),
            operations: operations
                .iter()
                .map(|(name, operation)| ((*name).to_owned(), with(Some(operation))))
                .collect(),
            places: places::places(text, &root, semantics)?,
            text: text.to_vec(),
        })
    }

    /// The text that it was read from.
    ///
    /// ```
    /// # use entity_rules::Definition;
    /// # let least = r#"{"entity": "e", "schema": {}, "lifecycle": {"initial": "s", "states": ["s"]}}"#;
    /// assert_eq!(Definition::read(least)?.text(), least.as_bytes());
    /// # Ok::<(), entity_rules::DefinitionError>(())
    /// ```
    #[must_use]
    pub fn text(&self) -> &[u8] {
        &self.text
    }

    /// The name of the record's type.
    ///
    /// ```
    /// # use entity_rules::Definition;
    /// # let least = r#"{"entity": "e", "schema": {}, "lifecycle": {"initial": "s", "states": ["s"]}}"#;
    /// assert_eq!(Definition::read(least)?.entity(), "e");
    /// # Ok::<(), entity_rules::DefinitionError>(())
    /// ```
    #[must_use]
    pub fn entity(&self) -> &str {
        &self.entity
    }

    /// The version; 1 where the file has none.
    ///
    /// ```
    /// # use entity_rules::Definition;
    /// # let least = r#"{"entity": "e", "schema": {}, "lifecycle": {"initial": "s", "states": ["s"]}}"#;
    /// assert_eq!(Definition::read(least)?.version(), 1);
    /// # Ok::<(), entity_rules::DefinitionError>(())
    /// ```
    #[must_use]
    pub const fn version(&self) -> u32 {
        self.version
    }

    /// The semantics; `kernel/1` where the file has none.
    ///
    /// ```
    /// # use entity_rules::{Definition, Semantics};
    /// # let least = r#"{"entity": "e", "schema": {}, "lifecycle": {"initial": "s", "states": ["s"]}}"#;
    /// assert_eq!(Definition::read(least)?.semantics(), Semantics::Kernel1);
    /// # Ok::<(), entity_rules::DefinitionError>(())
    /// ```
    #[must_use]
    pub const fn semantics(&self) -> Semantics {
        self.semantics
    }

    /// The names of its operations, by rising bytes.
    ///
    /// ```
    /// # use entity_rules::Definition;
    /// # let least = r#"{"entity": "e", "schema": {}, "lifecycle": {"initial": "s", "states": ["s"]}}"#;
    /// assert_eq!(Definition::read(least)?.operations().count(), 0);
    /// # Ok::<(), entity_rules::DefinitionError>(())
    /// ```
    pub fn operations(&self) -> impl Iterator<Item = &str> {
        self.operations.keys().map(String::as_str)
    }

    /// The schema sheet that places of a scope are checked against, or the limit of sheets that it passes; none where there is no such operation.
    ///
    /// ```
    /// # use entity_rules::{Definition, Scope};
    /// # let least = r#"{"entity": "e", "schema": {}, "lifecycle": {"initial": "s", "states": ["s"]}}"#;
    /// let definition = Definition::read(least)?;
    /// let sheet = definition.schema(&Scope::Create).ok_or("a schema")?.map_err(Clone::clone)?;
    /// assert_eq!(*sheet, b"H,0,0,0,0\n");
    /// assert_eq!(definition.schema(&Scope::Operation("release".to_owned())), None);
    /// # Ok::<(), Box<dyn std::error::Error>>(())
    /// ```
    #[must_use]
    pub fn schema(&self, scope: &Scope) -> Option<Result<&SchemaSheet, &BuildError>> {
        let sheet = match scope {
            Scope::Record => &self.record,
            Scope::Create => &self.create,
            Scope::Operation(name) => self.operations.get(name)?,
        };
        Some(sheet.as_ref())
    }

    /// The places where entity-runtime makes a single check, in its order.
    ///
    /// ```
    /// # use entity_rules::Definition;
    /// # let least = r#"{"entity": "e", "schema": {}, "lifecycle": {"initial": "s", "states": ["s"]}}"#;
    /// assert_eq!(Definition::read(least)?.places(), []);
    /// # Ok::<(), entity_rules::DefinitionError>(())
    /// ```
    #[must_use]
    pub fn places(&self) -> &[Place] {
        &self.places
    }
}
