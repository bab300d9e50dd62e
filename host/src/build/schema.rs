//! Schemas.

use super::error::BuildError;
use super::part::{Built, Part, length_or_dash, lent, text};
use crate::sheets::SchemaSheet;
use crate::vocabulary::{FieldKind, Nesting};
use std::collections::btree_map::{BTreeMap, Entry};

/// Fields beside each other, by their names, or why there can be none.
#[derive(Clone, Debug, PartialEq, Eq)]
struct Siblings(Result<BTreeMap<String, Part>, BuildError>);

impl Default for Siblings {
    fn default() -> Self {
        Self(Ok(BTreeMap::new()))
    }
}

impl Siblings {
    fn insert(&mut self, field: Field) {
        if let Ok(fields) = &mut self.0 {
            if let Err(error) = insert(fields, field) {
                self.0 = Err(error);
            }
        }
    }

    fn count(&self) -> usize {
        self.0.as_ref().map_or(0, BTreeMap::len)
    }

    fn add_to(&self, part: &mut Part) -> Result<(), BuildError> {
        for field in self.0.as_ref().map_err(Clone::clone)?.values() {
            part.add(field)?;
        }
        Ok(())
    }
}

fn insert(fields: &mut BTreeMap<String, Part>, field: Field) -> Result<(), BuildError> {
    let part = field.part()?;
    match fields.entry(field.name) {
        Entry::Occupied(place) => Err(BuildError::NameTwice {
            name: place.key().clone(),
        }),
        Entry::Vacant(place) => {
            place.insert(part);
            Ok(())
        }
    }
}

/// A field of the record or the arguments, a property of another field, or an element.
///
/// ```
/// use entity_rules::{Field, FieldKind, Schema};
///
/// let bar = Field::element(FieldKind::Object)
///     .property(Field::new("threaded", FieldKind::Boolean))
///     .property(Field::new("number", FieldKind::Integer));
/// let bars = Field::new("bars", FieldKind::Array).items(bar);
/// assert_eq!(
///     Schema::new().field(bars).sheet()?,
///     b"H,0,1,-,0\nF,6,0,1,0,4,-,bars\nF,7,0,0,2,0,-,\nF,2,0,0,0,6,-,number\nF,4,0,0,0,8,-,threaded\n"
/// );
/// # Ok::<(), entity_rules::BuildError>(())
/// ```
#[derive(Clone, Debug, PartialEq, Eq)]
pub struct Field {
    name: String,
    kind: FieldKind,
    open: bool,
    tag: Option<String>,
    items: Option<Built>,
    properties: Siblings,
}

impl Field {
    /// A closed field without element, properties and tag.
    ///
    /// ```
    /// # use entity_rules::{Field, FieldKind, Schema};
    /// let schema = Schema::new().field(Field::new("name", FieldKind::String));
    /// assert_eq!(schema.sheet()?, b"H,0,1,-,0\nF,1,0,0,0,4,-,name\n");
    /// # Ok::<(), entity_rules::BuildError>(())
    /// ```
    #[must_use]
    pub fn new(name: impl Into<String>, kind: FieldKind) -> Self {
        Self {
            name: name.into(),
            kind,
            open: false,
            tag: None,
            items: None,
            properties: Siblings::default(),
        }
    }

    /// A field for [`items`](Self::items): as [`new`](Self::new), with the empty name that elements have.
    ///
    /// ```
    /// # use entity_rules::{Field, FieldKind};
    /// assert_eq!(Field::element(FieldKind::Map), Field::new("", FieldKind::Map));
    /// ```
    #[must_use]
    pub fn element(kind: FieldKind) -> Self {
        Self::new("", kind)
    }

    /// Opens it: an object may then have members that are not declared.
    ///
    /// ```
    /// # use entity_rules::{Field, FieldKind, Schema};
    /// let schema = Schema::new().field(Field::new("o", FieldKind::Object).open());
    /// assert_eq!(schema.sheet()?, b"H,0,1,-,0\nF,7,1,0,0,1,-,o\n");
    /// # Ok::<(), entity_rules::BuildError>(())
    /// ```
    #[must_use]
    pub fn open(mut self) -> Self {
        self.open = true;
        self
    }

    /// Gives it a tag: the name under which a union says which of its variants it is.
    ///
    /// ```
    /// # use entity_rules::{Field, FieldKind, Schema};
    /// let schema = Schema::new().field(Field::new("yarn", FieldKind::Union).tag("sort"));
    /// assert_eq!(schema.sheet()?, b"H,0,1,-,0\nF,11,0,0,0,4,4,yarnsort\n");
    /// # Ok::<(), entity_rules::BuildError>(())
    /// ```
    #[must_use]
    pub fn tag(mut self, tag: impl Into<String>) -> Self {
        self.tag = Some(tag.into());
        self
    }

    /// Says what its elements are: a kind, or a whole field made by [`element`](Self::element).
    ///
    /// ```
    /// # use entity_rules::{BuildError, Field, FieldKind, Schema};
    /// let schema = Schema::new().field(Field::new("bars", FieldKind::Array).items(FieldKind::Integer));
    /// assert_eq!(schema.sheet()?, b"H,0,1,-,0\nF,6,0,1,0,4,-,bars\nF,2,0,0,0,0,-,\n");
    ///
    /// let named = Field::new("bar", FieldKind::Integer);
    /// let schema = Schema::new().field(Field::new("bars", FieldKind::Array).items(named));
    /// assert_eq!(schema.sheet(), Err(BuildError::NamedElement { name: "bar".to_owned() }));
    /// # Ok::<(), entity_rules::BuildError>(())
    /// ```
    #[must_use]
    pub fn items(mut self, element: impl Into<Field>) -> Self {
        let element = element.into();
        self.items = Some(match element.name.is_empty() {
            true => element.part(),
            false => text("name", &element.name).and_then(|name| {
                Err(BuildError::NamedElement {
                    name: name.to_owned(),
                })
            }),
        });
        self
    }

    /// Adds a property. They may come in any order, no name twice.
    ///
    /// ```
    /// # use entity_rules::{Field, FieldKind, Schema};
    /// let yarn = Field::new("yarn", FieldKind::Object)
    ///     .property(Field::new("tex", FieldKind::Number))
    ///     .property(Field::new("dye", FieldKind::String));
    /// assert_eq!(
    ///     Schema::new().field(yarn).sheet()?,
    ///     b"H,0,1,-,0\nF,7,0,0,2,4,-,yarn\nF,1,0,0,0,3,-,dye\nF,3,0,0,0,3,-,tex\n"
    /// );
    /// # Ok::<(), entity_rules::BuildError>(())
    /// ```
    #[must_use]
    pub fn property(mut self, property: Field) -> Self {
        self.properties.insert(property);
        self
    }

    /// Its entry, with the element and the properties under it.
    fn part(&self) -> Built {
        let name = text("name", &self.name)?;
        let tag = text("tag", self.tag.as_deref().unwrap_or_default())?;
        let mut members = Part::of_schema();
        if let Some(items) = &self.items {
            members.add(lent(items)?)?;
        }
        self.properties.add_to(&mut members)?;
        let head = format!(
            "F,{},{},{},{},{},{},",
            self.kind.number(),
            u8::from(self.open),
            u8::from(self.items.is_some()),
            self.properties.count(),
            name.len(),
            length_or_dash(self.tag.as_deref()),
        );
        members.under(&head, &[name, tag], Nesting::Fields)
    }
}

impl From<FieldKind> for Field {
    fn from(kind: FieldKind) -> Self {
        Self::element(kind)
    }
}

/// A schema: the fields of a record and, where an operation takes some, of its arguments.
///
/// ```
/// use entity_rules::{Field, FieldKind, Schema};
///
/// let schema = Schema::new()
///     .field(Field::new("repeat", FieldKind::Integer))
///     .field(Field::new("name", FieldKind::String))
///     .argument(Field::new("by", FieldKind::String));
/// assert_eq!(
///     schema.sheet()?,
///     b"H,0,2,0,1\nF,1,0,0,0,4,-,name\nF,2,0,0,0,6,-,repeat\nF,1,0,0,0,2,-,by\n"
/// );
/// # Ok::<(), entity_rules::BuildError>(())
/// ```
#[derive(Clone, Debug, Default, PartialEq, Eq)]
pub struct Schema {
    open: bool,
    fields: Siblings,
    arguments: Option<Arguments>,
}

#[derive(Clone, Debug, Default, PartialEq, Eq)]
struct Arguments {
    open: bool,
    fields: Siblings,
}

impl Schema {
    /// A closed record without fields, and no arguments.
    ///
    /// ```
    /// assert_eq!(entity_rules::Schema::new().sheet()?, b"H,0,0,-,0\n");
    /// # Ok::<(), entity_rules::BuildError>(())
    /// ```
    #[must_use]
    pub fn new() -> Self {
        Self::default()
    }

    /// Opens the record: it may have fields that are not declared.
    ///
    /// ```
    /// assert_eq!(entity_rules::Schema::new().open().sheet()?, b"H,1,0,-,0\n");
    /// # Ok::<(), entity_rules::BuildError>(())
    /// ```
    #[must_use]
    pub fn open(mut self) -> Self {
        self.open = true;
        self
    }

    /// Adds a field of the record. They may come in any order, no name twice.
    ///
    /// ```
    /// # use entity_rules::{Field, FieldKind, Schema};
    /// let schema = Schema::new().field(Field::new("b", FieldKind::Json)).field(Field::new("a", FieldKind::Ref));
    /// assert_eq!(schema.sheet()?, b"H,0,2,-,0\nF,9,0,0,0,1,-,a\nF,8,0,0,0,1,-,b\n");
    /// # Ok::<(), entity_rules::BuildError>(())
    /// ```
    #[must_use]
    pub fn field(mut self, field: Field) -> Self {
        self.fields.insert(field);
        self
    }

    /// Says that there are arguments, even if none of them is declared.
    ///
    /// ```
    /// assert_eq!(entity_rules::Schema::new().arguments().sheet()?, b"H,0,0,0,0\n");
    /// # Ok::<(), entity_rules::BuildError>(())
    /// ```
    #[must_use]
    pub fn arguments(mut self) -> Self {
        self.arguments.get_or_insert_with(Arguments::default);
        self
    }

    /// Opens the arguments: there may be some that are not declared.
    ///
    /// ```
    /// assert_eq!(entity_rules::Schema::new().open_arguments().sheet()?, b"H,0,0,1,0\n");
    /// # Ok::<(), entity_rules::BuildError>(())
    /// ```
    #[must_use]
    pub fn open_arguments(mut self) -> Self {
        self.arguments.get_or_insert_with(Arguments::default).open = true;
        self
    }

    /// Adds an argument. They may come in any order, no name twice.
    ///
    /// ```
    /// # use entity_rules::{Field, FieldKind, Schema};
    /// let schema = Schema::new().argument(Field::new("by", FieldKind::String));
    /// assert_eq!(schema.sheet()?, b"H,0,0,0,1\nF,1,0,0,0,2,-,by\n");
    /// # Ok::<(), entity_rules::BuildError>(())
    /// ```
    #[must_use]
    pub fn argument(mut self, argument: Field) -> Self {
        let arguments = self.arguments.get_or_insert_with(Arguments::default);
        arguments.fields.insert(argument);
        self
    }

    /// Its sheet.
    ///
    /// ```
    /// # use entity_rules::{BuildError, Field, FieldKind, Schema};
    /// let wide = (1..=1_024).fold(Schema::new(), |schema, i| {
    ///     schema.field(Field::new(format!("{i:04}"), FieldKind::Json))
    /// });
    /// let last = "F,8,0,0,0,4,-,1024".to_owned();
    /// assert_eq!(wide.sheet(), Err(BuildError::TooManyEntries { entry: last, limit: 1_024 }));
    /// ```
    ///
    /// # Errors
    ///
    /// If a part of it or the whole passes a limit of sheets, or two sibling fields have one name.
    pub fn sheet(&self) -> Result<SchemaSheet, BuildError> {
        let mut part = Part::of_schema();
        part.add_entry(&self.head(), &[])?;
        self.fields.add_to(&mut part)?;
        if let Some(arguments) = &self.arguments {
            arguments.fields.add_to(&mut part)?;
        }
        Ok(SchemaSheet::new(part.sheet()))
    }

    fn head(&self) -> String {
        let arguments = self.arguments.as_ref().map_or_else(
            || "-,0".to_owned(),
            |arguments| format!("{},{}", u8::from(arguments.open), arguments.fields.count()),
        );
        format!(
            "H,{},{},{arguments}",
            u8::from(self.open),
            self.fields.count()
        )
    }
}
