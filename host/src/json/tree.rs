//! JSON text as a tree, each part with its place.

use super::fault::Fault;
use super::reader::Reader;
use std::ops::Range;

/// JSON text (RFC 8259) as a tree, each part with its place in the text.
///
/// It is read for display, without regard to what the text should hold.
///
/// ```
/// use entity_rules::json::{Content, Tree};
///
/// let tree = Tree::read(br#" {"a": [1E5, "\u00e9"]} "#)?;
/// let (key, value) = tree.root().members().next().ok_or("a member")?;
/// assert_eq!((key.content(), key.span()), (&Content::Key("a".to_owned()), 2..5));
/// let spans: Vec<_> = value.elements().map(|element| element.span()).collect();
/// assert_eq!(spans, [8..11, 13..21]);
/// # Ok::<(), Box<dyn std::error::Error>>(())
/// ```
#[derive(Clone, Debug, PartialEq, Eq)]
pub struct Tree {
    /// Each before what it holds.
    nodes: Vec<Node>,
}

/// A part, and how many nodes it takes with what it holds.
#[derive(Clone, Debug, PartialEq, Eq)]
pub(super) struct Node {
    pub(super) span: Range<usize>,
    pub(super) content: Content,
    pub(super) size: usize,
}

/// What a part of JSON text says.
///
/// ```
/// use entity_rules::json::{Content, Tree};
///
/// let content = |text: &[u8]| Tree::read(text).map(|tree| tree.root().content().clone());
/// assert_eq!(content(b"-0.0"), Ok(Content::Number("-0.0".to_owned())));
/// assert_eq!(content(b" [1, 2]"), Ok(Content::Array));
/// ```
#[derive(Clone, Debug, PartialEq, Eq, Hash)]
pub enum Content {
    /// `null`.
    Null,
    /// `true` or `false`.
    Bool(bool),
    /// A number, as written.
    Number(String),
    /// A string, without its escapes.
    String(String),
    /// An array.
    Array,
    /// An object.
    Object,
    /// The name of a member.
    Key(String),
}

impl Content {
    /// What it is called.
    pub(crate) const fn noun(&self) -> &'static str {
        match self {
            Self::Null => "null",
            Self::Bool(true) => "`true`",
            Self::Bool(false) => "`false`",
            Self::Number(_) => "a number",
            Self::String(_) => "a string",
            Self::Array => "an array",
            Self::Object => "an object",
            Self::Key(_) => "a name",
        }
    }
}

impl Tree {
    pub(super) const fn new(nodes: Vec<Node>) -> Self {
        Self { nodes }
    }

    /// Reads a text, of which no more than 1,024 arrays and objects lie in one another.
    ///
    /// ```
    /// use entity_rules::json::Tree;
    ///
    /// let fault = Tree::read(b"[1,]").unwrap_err();
    /// assert_eq!(fault.to_string(), "line 1, column 4: expected a value");
    /// ```
    ///
    /// # Errors
    ///
    /// If the text is not JSON, or nests deeper.
    pub fn read(text: &[u8]) -> Result<Self, Fault> {
        Reader::new(text).document()
    }

    /// The whole value.
    ///
    /// ```
    /// # use entity_rules::json::Tree;
    /// assert_eq!(Tree::read(b" [] ").map(|tree| tree.root().span()), Ok(1..3));
    /// ```
    #[must_use]
    pub fn root(&self) -> Part<'_> {
        Part { nodes: &self.nodes }
    }

    /// The name of a member, the place of the first member that has this name, and that of the one that has it again.
    pub(crate) fn repeated(&self) -> Option<(&str, Range<usize>, Range<usize>)> {
        let objects = (0..self.nodes.len()).filter_map(|at| self.nodes.get(at..));
        let mut objects = objects.map(|nodes| Part { nodes });
        objects.find_map(|part| part.repeated())
    }
}

/// A part of a tree, with what it holds.
///
/// ```
/// # use entity_rules::json::Tree;
/// let tree = Tree::read(b"[[1, 2], 3]")?;
/// let lengths = tree.root().elements().map(|element| element.elements().count());
/// assert_eq!(lengths.collect::<Vec<_>>(), [2, 0]);
/// # Ok::<(), entity_rules::json::Fault>(())
/// ```
#[derive(Clone, Copy, Debug, PartialEq, Eq)]
pub struct Part<'a> {
    /// Its own node first, then those of what it holds.
    nodes: &'a [Node],
}

impl<'a> Part<'a> {
    /// What it says.
    ///
    /// ```
    /// use entity_rules::json::{Content, Tree};
    ///
    /// assert_eq!(Tree::read(b"null").map(|tree| tree.root().content().clone()), Ok(Content::Null));
    /// ```
    #[must_use]
    pub fn content(&self) -> &'a Content {
        self.nodes
            .first()
            .map_or(&Content::Null, |node| &node.content)
    }

    /// Its bytes in the text.
    ///
    /// ```
    /// # use entity_rules::json::Tree;
    /// assert_eq!(Tree::read(b" true").map(|tree| tree.root().span()), Ok(1..5));
    /// ```
    #[must_use]
    pub fn span(&self) -> Range<usize> {
        self.nodes.first().map_or(0..0, |node| node.span.clone())
    }

    /// The text of a string, of a number or of a member's name.
    pub(crate) fn said(&self) -> &'a str {
        match self.content() {
            Content::String(text) | Content::Number(text) | Content::Key(text) => text,
            _ => "",
        }
    }

    /// The elements of an array; nothing else has any.
    ///
    /// ```
    /// # use entity_rules::json::Tree;
    /// let tree = Tree::read(b"{\"a\": 1}")?;
    /// assert_eq!(tree.root().elements().count(), 0);
    /// # Ok::<(), entity_rules::json::Fault>(())
    /// ```
    pub fn elements(&self) -> impl Iterator<Item = Part<'a>> + use<'a> {
        let is_array = *self.content() == Content::Array;
        self.held().filter(move |_| is_array)
    }

    /// The members of an object, each with its name; nothing else has any.
    ///
    /// ```
    /// # use entity_rules::json::Tree;
    /// let tree = Tree::read(b"{\"a\": 1, \"b\": []}")?;
    /// let values = tree.root().members().map(|(_, value)| value.span());
    /// assert_eq!(values.collect::<Vec<_>>(), [6..7, 14..16]);
    /// # Ok::<(), entity_rules::json::Fault>(())
    /// ```
    pub fn members(&self) -> impl Iterator<Item = (Part<'a>, Part<'a>)> + use<'a> {
        let is_object = *self.content() == Content::Object;
        let mut held = self.held().filter(move |_| is_object);
        std::iter::from_fn(move || Some((held.next()?, held.next()?)))
    }

    /// What it holds, the name of a member before its value.
    fn held(&self) -> impl Iterator<Item = Part<'a>> + use<'a> {
        let size = self.nodes.first().map_or(0, |node| node.size);
        let mut rest = self.nodes.get(1..size).unwrap_or_default();
        std::iter::from_fn(move || {
            let (nodes, after) = rest.split_at_checked(rest.first()?.size)?;
            rest = after;
            Some(Part { nodes })
        })
    }

    /// The first member of an object whose name one before it has.
    fn repeated(&self) -> Option<(&'a str, Range<usize>, Range<usize>)> {
        let mut met = std::collections::HashMap::new();
        self.members().find_map(|(key, _)| {
            let name = key.said();
            let first = met.insert(name, key.span())?;
            Some((name, first, key.span()))
        })
    }
}
