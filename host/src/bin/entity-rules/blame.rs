//! Which part of a reference is at fault, and what was likely meant. Whether there is a fault, and which, the library decides; this follows the same path
//! through the schema to explain it.

use crate::members::{Holder, Tree};
use crate::near::nearest;
use crate::outline::Binder;
use crate::printed::visible;
use entity_rules::{FieldKind, Kind, Name, ReferenceFault, Semantics, Table};
use std::ops::Range;

/// The part of a text that is at fault.
#[derive(Debug, PartialEq, Eq)]
pub struct Blame {
    /// What comes before it in the text.
    pub before: String,
    /// The part itself; empty where something is missing.
    pub part: String,
    /// What is wrong with it.
    pub what: String,
    pub help: Option<Help>,
}

/// What is possible there.
#[derive(Debug, PartialEq, Eq)]
pub enum Help {
    /// This was likely meant.
    Meant(String),
    /// Nothing that is there is near; these are all.
    Has(Vec<String>),
}

impl Help {
    pub fn text(&self) -> String {
        match self {
            Self::Meant(name) => format!("did you mean {}?", quoted(name)),
            Self::Has(names) => {
                let names: Vec<String> = names.iter().map(|name| quoted(name)).collect();
                let verb = if names.len() == 1 { "is" } else { "are" };
                format!("there {verb} {}", names.join(", "))
            }
        }
    }

    /// The nearest of some names, or all of them if they are few.
    fn among<'a>(given: &str, names: impl Iterator<Item = &'a str> + Clone) -> Option<Self> {
        /// How many names are listed at most.
        const LISTED: usize = 8;
        if let Some(name) = nearest(given, names.clone()) {
            return Some(Self::Meant(name.to_owned()));
        }
        let names: Vec<String> = names
            .take(LISTED.saturating_add(1))
            .map(str::to_owned)
            .collect();
        (1..=LISTED)
            .contains(&names.len())
            .then_some(Self::Has(names))
    }
}

fn quoted(name: &str) -> String {
    format!("`{}`", visible(name))
}

impl Blame {
    fn new(text: &str, range: Range<usize>, what: String, help: Option<Help>) -> Option<Self> {
        Some(Self {
            before: text.get(..range.start)?.to_owned(),
            part: text.get(range)?.to_owned(),
            what,
            help,
        })
    }
}

/// What decides which names can be read.
pub struct Readable<'a> {
    pub kind: Kind,
    pub semantics: Semantics,
    pub table: &'a Table,
}

impl Readable<'_> {
    /// The part of a reference that has this fault, in the bodies of these quantifiers.
    pub fn blame(
        &self,
        schema: &Tree,
        binders: &[Binder<'_>],
        fault: ReferenceFault,
        text: &str,
    ) -> Option<Blame> {
        let (name, path) = parted(text.strip_prefix('$')?);
        if matches!(
            fault,
            ReferenceFault::RootNotAvailable | ReferenceFault::NoSuchReference
        ) {
            let help = || self.meant(schema, binders, name, path.is_some());
            return self.name(text, name, path.is_some(), help);
        }
        let walk = Walk {
            text,
            start: text.len().checked_sub(path?.len())?,
            fault,
            semantics: self.semantics,
        };
        match binders.iter().rposition(|binder| binder.bind == name) {
            Some(innermost) => walk.member(element(schema, binders.get(..=innermost)?)?),
            None => walk.root(schema.root(name.parse().ok()?)?),
        }
    }

    /// A name that cannot be read, or not with a path after it.
    fn name(
        &self,
        text: &str,
        name: &str,
        has_path: bool,
        help: impl FnOnce() -> Option<Help>,
    ) -> Option<Blame> {
        let end = name.len().checked_add(1)?;
        let shown = quoted(text.get(..end)?);
        let is_readable = |name| self.table.names(self.kind).contains(&name);
        let blame = |range, what: String, help| Blame::new(text, range, what, help);
        match name.parse::<Name>() {
            _ if name.is_empty() => blame(end..end, "a name is missing after `$`".to_owned(), None),
            Err(_) => blame(0..end, format!("unknown name {shown}"), help()),
            Ok(name) if !is_readable(name) => {
                let what = format!("the kind {} may not read {shown}", self.kind);
                blame(0..end, what, None)
            }
            Ok(Name::Args) if has_path => {
                blame(0..end, "the schema has no arguments".to_owned(), None)
            }
            Ok(_) => {
                let what = format!("no path may follow {shown}");
                blame(end..text.len(), what, None)
            }
        }
    }

    /// What was meant by a name that there is not: one that can be read, or a field that has that name.
    fn meant(
        &self,
        schema: &Tree,
        binders: &[Binder<'_>],
        name: &str,
        has_path: bool,
    ) -> Option<Help> {
        let names = self.table.names(self.kind);
        let fitting = names
            .iter()
            .filter(|name| !has_path || schema.root(**name).is_some())
            .map(|name| name.text());
        let binds = binders.iter().rev().map(|binder| binder.bind);
        let near = nearest(name, binds.chain(fitting)).map(str::to_owned);
        let has_it = |root: &Name| {
            let holder = schema.root(*root);
            holder.is_some_and(|holder| holder.property(name).is_some())
        };
        let field = || {
            let root = names.iter().copied().find(has_it)?;
            Some(format!("{root}.{name}"))
        };
        let meant = near.or_else(field)?;
        Some(Help::Meant(format!("${meant}")))
    }
}

/// A text at its first dot.
fn parted(text: &str) -> (&str, Option<&str>) {
    text.split_once('.')
        .map_or((text, None), |(name, path)| (name, Some(path)))
}

/// The part of a key path that has this fault.
pub fn key(
    schema: &Tree,
    semantics: Semantics,
    fault: ReferenceFault,
    text: &str,
) -> Option<Blame> {
    let walk = Walk {
        text,
        start: 0,
        fault,
        semantics,
    };
    walk.root(schema.root(Name::Fields)?)
}

/// The field of what the last of these binders stands for, where it is known (docs/FORMAT.md, "Collections").
fn element<'t>(schema: &'t Tree, binders: &[Binder<'_>]) -> Option<&'t Holder> {
    let (binder, outer) = binders.split_last()?;
    let (name, path) = parted(binder.over.get(1..)?);
    let (start, path) = match outer.iter().rposition(|outer| outer.bind == name) {
        Some(innermost) => (element(schema, outer.get(..=innermost)?)?, Some(path?)),
        None => {
            let (first, rest) = parted(path?);
            (schema.root(name.parse().ok()?)?.property(first)?, rest)
        }
    };
    let reached = path.map_or(Some(start), |path| path.split('.').try_fold(start, next))?;
    reached.element.as_deref()
}

/// Where a segment leads, if it leads to a field.
fn next<'t>(holder: &'t Holder, segment: &str) -> Option<&'t Holder> {
    match holder.member.kind {
        Some(FieldKind::Array) if is_ordinal(segment) => holder.element.as_deref(),
        Some(FieldKind::Object) | None => holder.property(segment),
        _ => None,
    }
}

fn is_ordinal(segment: &str) -> bool {
    let is_digits = !segment.is_empty() && segment.bytes().all(|byte| byte.is_ascii_digit());
    is_digits && (segment == "0" || !segment.starts_with('0'))
}

/// A path in a text that cannot be read to its end.
#[derive(Clone, Copy)]
struct Walk<'a> {
    text: &'a str,
    /// The byte at which the path, or what is left of it, begins.
    start: usize,
    fault: ReferenceFault,
    semantics: Semantics,
}

impl Walk<'_> {
    /// The segment at the start, and where what follows its dot begins.
    fn segment(&self) -> Option<(&str, Option<usize>)> {
        let rest = self.text.get(self.start..)?;
        let segment = rest.split('.').next()?;
        let end = self.start.checked_add(segment.len())?;
        let after = end.checked_add(1).filter(|_| segment.len() < rest.len());
        Some((segment, after))
    }

    fn blame(&self, what: String, help: Option<Help>) -> Option<Blame> {
        let (segment, _) = self.segment()?;
        let end = self.start.checked_add(segment.len())?;
        Blame::new(self.text, self.start..end, what, help)
    }

    /// What follows the segment is at fault.
    fn blame_rest(&self, what: String) -> Option<Blame> {
        let (_, after) = self.segment()?;
        Blame::new(self.text, after?..self.text.len(), what, None)
    }

    /// From the record or the arguments on.
    fn root(self, root: &Holder) -> Option<Blame> {
        let (segment, after) = self.segment()?;
        if segment.is_empty() {
            return self.empty();
        }
        match (root.property(segment), after) {
            (Some(field), Some(start)) => Walk { start, ..self }.member(field),
            (Some(_), None) => None,
            (None, _) => {
                let given = quoted(segment);
                let what = match root.member.path.as_str() {
                    "$args" => format!("the arguments have no field {given} and are closed"),
                    _ => format!("the record has no field {given} and is closed"),
                };
                self.blame(what, Help::among(segment, names(root)))
            }
        }
    }

    fn empty(&self) -> Option<Blame> {
        self.blame("a segment of the path is empty".to_owned(), None)
    }

    /// From a field on, up to the segment at which the walk ends.
    fn member(mut self, field: &Holder) -> Option<Blame> {
        let mut field = field;
        loop {
            let (segment, after) = self.segment()?;
            match (next(field, segment), after) {
                _ if segment.is_empty() => return self.empty(),
                (Some(member), Some(start)) => (field, self.start) = (member, start),
                _ => return self.stops(field),
            }
        }
    }

    /// The segment that a field does not have.
    fn stops(&self, field: &Holder) -> Option<Blame> {
        let (segment, _) = self.segment()?;
        let (path, given) = (&field.member.path, quoted(segment));
        let kind = field.member.kind?;
        let tag = field.tag.as_deref().unwrap_or_default();
        match self.fault {
            ReferenceFault::UnknownProperty => self.blame(
                format!("the closed object `{path}` has no property {given}"),
                Help::among(segment, names(field)),
            ),
            ReferenceFault::ArrayMember | ReferenceFault::MapMember => self.blame(
                format!("the {kind} `{path}` has no member {given}"),
                self.collection_help(field, segment),
            ),
            ReferenceFault::UnionMember => {
                let content = if tag == "value" { "content" } else { "value" };
                let members = [tag, content].into_iter().filter(|name| !name.is_empty());
                let what = format!("the union `{path}` has no member {given}");
                self.blame(what, Help::among(segment, members))
            }
            ReferenceFault::AfterCount => self.blame_rest("nothing may follow `count`".to_owned()),
            ReferenceFault::AfterTag => self.blame_rest(format!(
                "nothing may follow {}, the tag of `{path}`",
                quoted(tag)
            )),
            ReferenceFault::NoCount => {
                self.blame(format!("`{path}` has no `count`, its kind is {kind}"), None)
            }
            ReferenceFault::NoMember => {
                let has_count = kind == FieldKind::String && self.semantics.is_service();
                let help = nearest(segment, has_count.then_some("count"));
                let what = format!("`{path}` has no members, its kind is {kind}");
                self.blame(what, help.map(|name| Help::Meant(name.to_owned())))
            }
            ReferenceFault::TextCount => self.blame(
                format!("a projection cannot read the length of the text `{path}`"),
                None,
            ),
            _ => None,
        }
    }

    /// An array has its elements and a count, a map only the latter.
    fn collection_help(&self, field: &Holder, segment: &str) -> Option<Help> {
        let element = field.element.as_deref();
        let is_array = field.member.kind == Some(FieldKind::Array);
        match nearest(segment, ["count"]) {
            Some(name) => Some(Help::Meant(name.to_owned())),
            None if is_array
                && element.is_some_and(|element| element.property(segment).is_some()) =>
            {
                Some(Help::Meant(format!("0.{segment}")))
            }
            None if is_array => Some(Help::Has(vec!["count".to_owned(), "0".to_owned()])),
            None => Some(Help::Has(vec!["count".to_owned()])),
        }
    }
}

/// The names of a field's properties.
fn names(holder: &Holder) -> impl Iterator<Item = &str> + Clone {
    holder.properties.iter().map(|holder| holder.name.as_str())
}
