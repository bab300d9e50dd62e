//! Kind and semantics of a rule or template, the names that it may read, and the reader of a key (docs/FORMAT.md, "Settings and names", "Keys").

use crate::numbered::numbered;
use std::fmt;
use std::str::FromStr;

numbered! {
    /// Where a rule or template is used, and so which names it may read.
    ///
    /// All may read `$id`, `$entity` and `$version`; the values below say what else, unless a [`Table`](crate::Table) says otherwise. Any kind
    /// goes with either sheet.
    ///
    /// ```
    /// use entity_rules::Kind;
    ///
    /// let kind: Kind = "create_selector".parse()?;
    /// assert_eq!(kind, Kind::CreateSelector);
    /// assert_eq!(kind.number(), 6);
    /// assert_eq!("CreateSelector".parse(), Ok(kind));
    /// assert!(kind.is_rule());
    /// assert!("selector".parse::<Kind>().is_err());
    /// # Ok::<(), entity_rules::UnknownName>(())
    /// ```
    Kind {
        /// A rule that holds for every state of the record; reads `$fields`, `$state`.
        Invariant = 1, "invariant";
        /// A rule that an operation must meet; reads `$fields`, `$old_fields`, `$args`, `$from_state`, `$to_state`.
        Precondition = 2, "precondition";
        /// What the event of a creation says; reads `$fields`, `$state`, `$to_state`.
        CreateTemplate = 3, "create_template";
        /// What the event of an operation says, and what it sets; reads all names.
        OperationTemplate = 4, "operation_template";
        /// A rule that chooses a branch of an operation; reads `$fields`, `$args`, `$from_state`.
        OutcomeSelector = 5, "outcome_selector";
        /// A rule that chooses a branch of a creation; reads `$args`.
        CreateSelector = 6, "create_selector";
        /// What a branch of a creation sets; reads `$args`, `$state`, `$to_state`.
        CreateSet = 7, "create_set";
        /// What a branch of a creation says; reads `$fields`, `$args`, `$state`, `$to_state`.
        CreateOutcomeTemplate = 8, "create_outcome_template";
    }
}

impl Kind {
    /// Whether it is a kind of rules; the others are kinds of templates.
    ///
    /// ```
    /// use entity_rules::Kind;
    ///
    /// let rules = Kind::ALL.iter().filter(|kind| kind.is_rule());
    /// assert_eq!(rules.count(), 4);
    /// ```
    #[must_use]
    pub const fn is_rule(self) -> bool {
        matches!(
            self,
            Self::Invariant | Self::Precondition | Self::OutcomeSelector | Self::CreateSelector
        )
    }

    /// The names that it may read by the stock table, each without its `$`. Binds of quantifiers come in addition, in their bodies.
    ///
    /// ```
    /// use entity_rules::Kind;
    ///
    /// assert_eq!(Kind::CreateSelector.names(), ["id", "entity", "version", "args"]);
    /// ```
    #[must_use]
    pub const fn names(self) -> &'static [&'static str] {
        match self {
            Self::Invariant => &["id", "entity", "version", "fields", "state"],
            Self::Precondition => &[
                "id",
                "entity",
                "version",
                "fields",
                "to_state",
                "from_state",
                "args",
                "old_fields",
            ],
            Self::CreateTemplate => &["id", "entity", "version", "fields", "state", "to_state"],
            Self::OperationTemplate => &[
                "id",
                "entity",
                "version",
                "fields",
                "state",
                "to_state",
                "from_state",
                "args",
                "old_fields",
            ],
            Self::OutcomeSelector => &["id", "entity", "version", "fields", "from_state", "args"],
            Self::CreateSelector => &["id", "entity", "version", "args"],
            Self::CreateSet => &["id", "entity", "version", "state", "to_state", "args"],
            Self::CreateOutcomeTemplate => &[
                "id", "entity", "version", "fields", "state", "to_state", "args",
            ],
        }
    }
}

numbered! {
    /// A name that a reference can begin with, after its `$`. Its number is the place of its mark in a row of a [`Table`](crate::Table).
    ///
    /// ```
    /// use entity_rules::Name;
    ///
    /// let name: Name = "$to_state".parse()?;
    /// assert_eq!(name, Name::ToState);
    /// assert_eq!((name.number(), name.text()), (6, "to_state"));
    /// assert!("to".parse::<Name>().is_err());
    /// # Ok::<(), entity_rules::UnknownName>(())
    /// ```
    Name {
        /// The record's identity.
        Id = 1, "id";
        /// What the record is called in its definition.
        Entity = 2, "entity";
        /// The record's version.
        Version = 3, "version";
        /// The record's fields; a path may follow.
        Fields = 4, "fields";
        /// The record's state.
        State = 5, "state";
        /// The state that an operation leads to.
        ToState = 6, "to_state";
        /// The state that an operation starts from.
        FromState = 7, "from_state";
        /// The arguments; a path may follow.
        Args = 8, "args";
        /// The record's fields before an operation; a path may follow.
        OldFields = 9, "old_fields";
    }
}

numbered! {
    /// The version of the language that a rule or template is written for.
    ///
    /// ```
    /// use entity_rules::Semantics;
    ///
    /// let semantics: Semantics = "service/1".parse()?;
    /// assert_eq!(semantics, Semantics::Service1);
    /// assert!(semantics.is_service());
    /// assert!(!Semantics::Kernel1.is_service());
    /// # Ok::<(), entity_rules::UnknownName>(())
    /// ```
    Semantics {
        /// Without the operators `compare`, `truthy`, `for_all`, `for_any`.
        Kernel1 = 1, "kernel/1";
        /// With all operators.
        Service1 = 2, "service/1";
        /// For a check the same as `service/1`.
        Service2 = 3, "service/2";
        /// For a check the same as `service/1`.
        Service3 = 4, "service/3";
    }
}

impl Semantics {
    /// Whether it is one of the service semantics, which do not differ in a check.
    ///
    /// ```
    /// assert!(entity_rules::Semantics::Service3.is_service());
    /// ```
    #[must_use]
    pub const fn is_service(self) -> bool {
        !matches!(self, Self::Kernel1)
    }
}

numbered! {
    /// Which walk will read a key path.
    ///
    /// The readers differ in one thing: under the service semantics a projection cannot read how long a text is.
    ///
    /// ```
    /// use entity_rules::Reader;
    ///
    /// let reader: Reader = "projection".parse()?;
    /// assert_eq!(reader, Reader::Projection);
    /// assert_eq!(reader.number(), 2);
    /// # Ok::<(), entity_rules::UnknownName>(())
    /// ```
    Reader {
        /// The kernel, which reads a path as it reads a reference of a rule.
        Kernel = 1, "kernel";
        /// A projection, which files records under what a path leads to.
        Projection = 2, "projection";
    }
}

/// A text that names no kind, no semantics, no reader, or nothing that a reference can begin with.
///
/// ```
/// use entity_rules::{Kind, Semantics};
///
/// let error = "service".parse::<Semantics>().unwrap_err();
/// assert_eq!(
///     error.to_string(),
///     "\"service\" is not a known semantics; expected one of kernel/1, service/1, service/2, service/3"
/// );
/// ```
#[derive(Clone, Debug, PartialEq, Eq)]
pub struct UnknownName {
    /// What was asked for: `kind`, `semantics`, `reader` or `name`.
    pub what: &'static str,
    /// The text that was given.
    pub given: String,
    /// The names that there are.
    pub known: Vec<&'static str>,
}

impl fmt::Display for UnknownName {
    fn fmt(&self, f: &mut fmt::Formatter<'_>) -> fmt::Result {
        let known = self.known.join(", ");
        write!(
            f,
            "{:?} is not a known {}; expected one of {known}",
            self.given, self.what
        )
    }
}

impl std::error::Error for UnknownName {}

impl FromStr for Kind {
    type Err = UnknownName;

    /// Reads a kind's name, with `_` or `-` between its words, or as docs/FORMAT.md spells it: `CreateSelector`.
    fn from_str(given: &str) -> Result<Self, UnknownName> {
        let spelled = given.replace('-', "_");
        let is_it = |kind: &&Self| kind.text() == spelled || kind.name() == given;
        let found = Self::ALL.iter().find(is_it);
        found.copied().ok_or_else(|| UnknownName {
            what: "kind",
            given: given.to_owned(),
            known: Self::ALL.iter().map(|kind| kind.text()).collect(),
        })
    }
}

impl FromStr for Name {
    type Err = UnknownName;

    /// Reads a name, with or without its `$`.
    fn from_str(given: &str) -> Result<Self, UnknownName> {
        let bare = given.strip_prefix('$').unwrap_or(given);
        let found = Self::ALL.iter().find(|name| name.text() == bare);
        found.copied().ok_or_else(|| UnknownName {
            what: "name",
            given: given.to_owned(),
            known: Self::ALL.iter().map(|name| name.text()).collect(),
        })
    }
}

impl FromStr for Semantics {
    type Err = UnknownName;

    fn from_str(given: &str) -> Result<Self, UnknownName> {
        let found = Self::ALL.iter().find(|semantics| semantics.text() == given);
        found.copied().ok_or_else(|| UnknownName {
            what: "semantics",
            given: given.to_owned(),
            known: Self::ALL.iter().map(|semantics| semantics.text()).collect(),
        })
    }
}

impl FromStr for Reader {
    type Err = UnknownName;

    /// Reads a reader's name, or as docs/FORMAT.md spells it: `Projection`.
    fn from_str(given: &str) -> Result<Self, UnknownName> {
        let is_it = |reader: &&Self| reader.text() == given || reader.name() == given;
        let found = Self::ALL.iter().find(is_it);
        found.copied().ok_or_else(|| UnknownName {
            what: "reader",
            given: given.to_owned(),
            known: Self::ALL.iter().map(|reader| reader.text()).collect(),
        })
    }
}
