//! What a generated rule may read at some point, and references and collections that can, or nearly can, be read there.

use crate::generate::build::{ARRAY, JSON, MAP, OBJECT, STRING, UNION};
use crate::generate::names::{Names, ALL_NAMES};
use crate::generate::schemas::name;
use crate::random::Random;
use model::trees::{Field, Holder, Schema};

/// An enclosing quantifier: its bind, and its element where that is known.
#[derive(Clone)]
pub struct Binder<'s> {
    pub name: String,
    pub element: Option<&'s Field>,
}

#[derive(Clone)]
pub struct Scope<'s> {
    pub kind: u64,
    pub names: &'s Names,
    pub service: bool,
    pub schema: &'s Schema,
    pub binders: Vec<Binder<'s>>,
    /// How often in a hundred something is made wrong; with 0 everything is right.
    pub slip: usize,
}

/// Where a path leads.
#[derive(Clone, Copy)]
enum Reach<'s> {
    Field(&'s Field),
    /// Something that no schema describes: whatever follows is fine.
    Unknown,
    /// Something that has no members.
    Leaf,
}

/// Where a path can begin.
enum Start<'s> {
    Holder(&'s Holder),
    Element(Option<&'s Field>),
}

impl<'s> Scope<'s> {
    pub fn bound(&self, name: &str, element: Option<&'s Field>) -> Self {
        let mut inner = self.clone();
        inner.binders.push(Binder { name: name.to_owned(), element });
        inner
    }

    /// Whether the kind may read the name, bound or not.
    pub fn may_read(&self, name: &str) -> bool {
        self.names.may_read(self.kind, name)
    }

    fn is_bound(&self, name: &str) -> bool {
        self.binders.iter().any(|binder| binder.name == name)
    }

    /// The binders that no inner one hides, then the roots that may be read and that no binder hides.
    fn starts(&self) -> Vec<(String, Start<'s>)> {
        let visible = |(index, binder): &(usize, &Binder<'s>)| !self.binders[index + 1..].iter().any(|inner| inner.name == binder.name);
        let binders = self.binders.iter().enumerate().filter(visible);
        let mut starts: Vec<_> = binders.map(|(_, binder)| (binder.name.clone(), Start::Element(binder.element))).collect();
        let roots =
            [("fields", Some(&self.schema.record)), ("old_fields", Some(&self.schema.record)), ("args", self.schema.arguments.as_ref())];
        for (root, holder) in roots {
            if let Some(holder) = holder.filter(|_| self.may_read(root) && !self.is_bound(root)) {
                starts.push((root.to_owned(), Start::Holder(holder)));
            }
        }
        starts
    }

    /// A path of the record, without its root, that the kernel can read; none where the record has nothing to name.
    pub fn key(&self, random: &mut Random) -> Option<String> {
        let mut path = String::new();
        self.walk(random, &Start::Holder(&self.schema.record), &mut path);
        path.strip_prefix('.').map(str::to_owned)
    }

    /// A text that begins with one `$`, and can be read if nothing slips.
    pub fn reference(&self, random: &mut Random) -> String {
        let right = self.right_reference(random);
        if random.chance(self.slip) {
            damaged_reference(random, &right)
        } else {
            right
        }
    }

    fn right_reference(&self, random: &mut Random) -> String {
        let starts: Vec<_> = self.starts().into_iter().filter(|(name, _)| !name.starts_with('$')).collect();
        if starts.is_empty() || random.chance(15) {
            return format!("${}", random.pick(&self.names.readable(self.kind)));
        }
        // Binders come first and are the point of a body, so they are taken more often.
        let index = random.below(starts.len()).min(random.below(starts.len()));
        let (name, start) = &starts[index];
        let mut path = format!("${name}");
        self.walk(random, start, &mut path);
        path
    }

    /// What a quantifier may walk over, and its element; none if nothing here is a collection.
    pub fn over(&self, random: &mut Random) -> Option<(String, Option<&'s Field>)> {
        let starts = self.starts();
        for _ in 0..12 {
            let (name, start) = starts.get(random.below(starts.len().max(1)))?;
            let is_binder = matches!(start, Start::Element(_));
            let first = if is_binder && random.chance(15) { random.pick(&['x', 'b', '$', '-']) } else { '$' };
            let mut path = format!("{first}{name}");
            // A binder without a path is a collection of unknown elements.
            let bare = path.len();
            let reach = self.walk(random, start, &mut path);
            match reach {
                _ if is_binder && path.len() == bare => return Some((path, None)),
                Reach::Unknown if path.len() > bare => return Some((path, None)),
                Reach::Field(field) if matches!(field.kind, ARRAY | MAP) && path.len() > bare => {
                    return Some((path, field.items.as_deref()))
                }
                _ => {}
            }
        }
        None
    }

    fn walk(&self, random: &mut Random, start: &Start<'s>, path: &mut String) -> Reach<'s> {
        let reach = match start {
            Start::Element(None) => Reach::Unknown,
            Start::Element(Some(field)) => Reach::Field(field),
            Start::Holder(holder) => match self.member(random, &holder.fields, holder.open) {
                Some((segment, reach)) => {
                    path.push('.');
                    path.push_str(&segment);
                    reach
                }
                None => Reach::Leaf,
            },
        };
        self.walk_on(random, reach, path)
    }

    fn walk_on(&self, random: &mut Random, mut reach: Reach<'s>, path: &mut String) -> Reach<'s> {
        while let Reach::Field(field) = reach {
            let step = if random.chance(75) { self.step(random, field) } else { None };
            let Some((segment, next)) = step else { break };
            path.push('.');
            path.push_str(&segment);
            reach = next;
        }
        if matches!(reach, Reach::Unknown) && random.chance(30) {
            path.push('.');
            path.push_str(name(random));
        }
        reach
    }

    /// One right step from a field; none where no segment is right.
    fn step(&self, random: &mut Random, field: &'s Field) -> Option<(String, Reach<'s>)> {
        let count = || Some(("count".to_owned(), Reach::Leaf));
        match field.kind {
            OBJECT => self.member(random, &field.properties, field.open),
            JSON => Some((segment(random), Reach::Unknown)),
            ARRAY | MAP | STRING | UNION if !self.service => None,
            ARRAY if random.chance(75) => {
                let ordinal = (random.pick(&["0", "1", "7", "10", "18446744073709551616"])).to_owned();
                Some((ordinal, field.items.as_deref().map_or(Reach::Unknown, Reach::Field)))
            }
            ARRAY | MAP | STRING => count(),
            UNION => union_step(random, field),
            _ => None,
        }
    }

    fn member(&self, random: &mut Random, fields: &'s [Field], open: bool) -> Option<(String, Reach<'s>)> {
        let reachable: Vec<_> = fields.iter().filter(|field| !field.name.is_empty() && !field.name.contains('.')).collect();
        if reachable.is_empty() || (open && random.chance(25)) {
            let unknown = segment(random);
            return (open && !fields.iter().any(|field| field.name == unknown)).then_some((unknown, Reach::Unknown));
        }
        let field = random.pick(&reachable);
        Some((field.name.clone(), Reach::Field(field)))
    }
}

fn union_step<'s>(random: &mut Random, field: &Field) -> Option<(String, Reach<'s>)> {
    let tag = field.tag.as_deref().unwrap_or_default();
    if random.chance(50) && !tag.is_empty() && !tag.contains('.') {
        return Some((tag.to_owned(), Reach::Leaf));
    }
    Some((if tag == "value" { "content" } else { "value" }.to_owned(), Reach::Unknown))
}

/// A segment: a name that is not empty and has no dot.
fn segment(random: &mut Random) -> String {
    let name = name(random);
    if name.is_empty() || name.contains('.') { "z" } else { name }.to_owned()
}

const PIECES: [&str; 16] = ["$", ".", "b", "0", "1", "01", "é", "fields", "args", "old_fields", "count", "value", "state", "id", " ", "x"];

/// A text that begins with `$` and is some edits away from a reference.
pub fn damaged_reference(random: &mut Random, right: &str) -> String {
    let (stem, last) = right.rsplit_once('.').unwrap_or((right, ""));
    match random.below(8) {
        0 => format!("{right}.{}", name(random)),
        1 => format!("{stem}.{}", name(random)),
        2 => format!("{stem}..{last}"),
        3 => format!("{right}."),
        4 => right.split_once('.').map_or_else(|| format!("{right}x"), |(_, path)| format!("${}.{path}", random.pick(&ALL_NAMES))),
        5 => format!("{stem}.0{last}"),
        6 => format!("${}", random.pick(&ALL_NAMES)),
        _ => (0..random.between(1, 6)).fold("$".to_owned(), |text, _| text + random.pick(&PIECES)),
    }
}
