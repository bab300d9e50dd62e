//! Two schema sheets side by side, read for display: what an entry is called, and what has grown. Whether one is a widening of the other, the library decides.

use crate::region::Position;
use entity_rules::entries::{Content, Entry, read_schema};
use entity_rules::{FieldKind, Name};

/// An entry of a schema sheet.
#[derive(Clone, Debug, PartialEq, Eq)]
pub struct Member {
    pub place: usize,
    /// The line of the file on which the entry begins, from 1.
    pub line: usize,
    /// How it is reached: `$fields.bars[].threaded`, where `[]` is the element.
    pub path: String,
    /// What the entry says.
    pub text: String,
    /// A field's kind; none for the record and the arguments.
    pub kind: Option<FieldKind>,
    pub has_element: bool,
}

/// What a widening has that the schema before it had not.
#[derive(Debug, PartialEq, Eq)]
pub enum Growth {
    /// An open mark has gone from 0 to 1.
    Opened { old: Member, new: Member },
    /// A field is there, with so many entries below it.
    Added { new: Member, below: usize },
    /// Arguments are there.
    Arguments { new: Member },
}

/// A schema as a tree of entries.
pub struct Tree {
    record: Holder,
    arguments: Option<Holder>,
}

/// Whatever can have fields under it: the record, the arguments, a field, an element.
pub struct Holder {
    pub member: Member,
    /// Its name among its siblings; empty for the record, the arguments and elements.
    pub name: String,
    pub tag: Option<String>,
    is_open: bool,
    pub element: Option<Box<Holder>>,
    pub properties: Vec<Holder>,
}

impl Tree {
    /// The tree of a sheet that is well formed.
    pub fn new(sheet: &[u8]) -> Option<Self> {
        let entries = read_schema(sheet).ok()?;
        let mut reading = Reading {
            sheet,
            entries: entries.iter().zip(1..),
        };
        let (head, place) = reading.entries.next()?;
        let Content::Head {
            open,
            fields,
            arguments,
        } = head.content
        else {
            return None;
        };
        let record = reading.root("$fields", (head, place), open, fields)?;
        let arguments = match arguments {
            Some((open, count)) => Some(reading.root("$args", (head, place), open, count)?),
            None => None,
        };
        Some(Self { record, arguments })
    }

    /// What a path after `$fields`, `$old_fields` or `$args` begins at.
    pub fn root(&self, name: Name) -> Option<&Holder> {
        match name {
            Name::Fields | Name::OldFields => Some(&self.record),
            Name::Args => self.arguments.as_ref(),
            _ => None,
        }
    }

    /// The record, then the arguments.
    fn roots(&self) -> impl Iterator<Item = &Holder> {
        std::iter::once(&self.record).chain(&self.arguments)
    }

    /// The field of an entry after the head.
    pub fn field(&self, place: u32) -> Option<&Member> {
        let place = usize::try_from(place).ok()?;
        self.roots().find_map(|root| root.below(place))
    }

    pub fn record(&self) -> &Member {
        &self.record.member
    }

    pub fn arguments(&self) -> Option<&Member> {
        self.arguments.as_ref().map(|holder| &holder.member)
    }

    /// Whether the record closes from this schema to another.
    pub fn record_closes(&self, new: &Self) -> bool {
        self.record.is_open && !new.record.is_open
    }
}

/// What has grown from one schema to a widening of it, in the order of the first sheet.
pub fn grown(old: &Tree, new: &Tree) -> Vec<Growth> {
    let mut all = Vec::new();
    old.record.mark(&new.record, &mut all);
    match (&old.arguments, &new.arguments) {
        (Some(old), Some(new)) => old.mark(new, &mut all),
        (None, Some(new)) => all.push(Growth::Arguments {
            new: new.member.clone(),
        }),
        _ => {}
    }
    for (old, new) in old.roots().zip(new.roots()) {
        old.members(new, &mut all);
    }
    all
}

impl Holder {
    pub fn property(&self, name: &str) -> Option<&Self> {
        self.properties.iter().find(|holder| holder.name == name)
    }

    /// The member of an entry below it.
    fn below(&self, place: usize) -> Option<&Member> {
        let held = self.element.as_deref().into_iter().chain(&self.properties);
        let mut held = held.filter(|holder| holder.member.place <= place);
        let last = held.next_back()?;
        match last.member.place == place {
            true => Some(&last.member),
            false => last.below(place),
        }
    }

    /// How many entries are below it.
    fn count(&self) -> usize {
        let held = self.element.as_deref().into_iter().chain(&self.properties);
        held.map(|holder| holder.count().saturating_add(1))
            .fold(0, usize::saturating_add)
    }

    fn mark(&self, new: &Self, all: &mut Vec<Growth>) {
        if new.is_open && !self.is_open {
            all.push(Growth::Opened {
                old: self.member.clone(),
                new: new.member.clone(),
            });
        }
    }

    /// What has grown below it: its element first, then its properties by their names.
    fn members(&self, new: &Self, all: &mut Vec<Growth>) {
        if let (Some(old), Some(new)) = (&self.element, &new.element) {
            old.mark(new, all);
            old.members(new, all);
        }
        let mut olds = self.properties.iter().peekable();
        for new in &new.properties {
            match olds.next_if(|old| old.name == new.name) {
                Some(old) => {
                    old.mark(new, all);
                    old.members(new, all);
                }
                None => all.push(Growth::Added {
                    new: new.member.clone(),
                    below: new.count(),
                }),
            }
        }
    }
}

/// The entries of a sheet that are not read yet, with their places.
struct Reading<'a, I> {
    sheet: &'a [u8],
    entries: I,
}

impl<'a, I: Iterator<Item = (&'a Entry<'a>, usize)>> Reading<'a, I> {
    fn member(&self, (entry, place): (&Entry, usize), path: &str, text: String) -> Member {
        Member {
            place,
            line: Position::new(self.sheet, entry.byte).line,
            path: path.to_owned(),
            text,
            kind: None,
            has_element: false,
        }
    }

    /// The record or the arguments, with so many fields.
    fn root(
        &mut self,
        path: &str,
        head: (&Entry, usize),
        is_open: bool,
        count: usize,
    ) -> Option<Holder> {
        let properties = self.fields(path, count)?;
        let mark = if is_open { "open" } else { "closed" };
        let text = match count {
            1 => format!("{mark}, with 1 field"),
            count => format!("{mark}, with {count} fields"),
        };
        Some(Holder {
            member: self.member(head, path, text),
            name: String::new(),
            tag: None,
            is_open,
            element: None,
            properties,
        })
    }

    fn fields(&mut self, path: &str, count: usize) -> Option<Vec<Holder>> {
        let fields = (0..count).map(|_| self.field(path, false));
        fields.collect()
    }

    /// The next entry, with everything that belongs to it.
    fn field(&mut self, path: &str, is_element: bool) -> Option<Holder> {
        let (entry, place) = self.entries.next()?;
        let Content::Field {
            kind,
            open,
            items,
            properties,
            name,
            tag,
        } = entry.content
        else {
            return None;
        };
        let path = match is_element {
            true => format!("{path}[]"),
            false => format!("{path}.{}", segment(name)),
        };
        let element = match items {
            true => Some(Box::new(self.field(&path, true)?)),
            false => None,
        };
        let mut text = kind.to_string();
        text.push_str(if open { ", open" } else { "" });
        text.push_str(if items { ", with an element" } else { "" });
        if let Some(tag) = tag {
            text.push_str(&format!(", tag {tag:?}"));
        }
        Some(Holder {
            member: Member {
                kind: Some(kind),
                has_element: items,
                ..self.member((entry, place), &path, text)
            },
            name: name.to_owned(),
            tag: tag.map(str::to_owned),
            is_open: open,
            element,
            properties: self.fields(&path, properties)?,
        })
    }
}

/// A name as it is written in a path: quoted, unless nothing in it could be taken for something else.
fn segment(name: &str) -> String {
    let is_plain = |letter: char| letter.is_alphanumeric() || matches!(letter, '_' | '-');
    match !name.is_empty() && name.chars().all(is_plain) {
        true => name.to_owned(),
        false => format!("{name:?}"),
    }
}

#[cfg(test)]
#[allow(clippy::unwrap_used)]
mod tests {
    use super::*;

    const OLD: &[u8] = b"H,0,2,-,0\nF,6,0,1,0,4,-,bars\nF,7,0,0,1,0,-,\nF,4,0,0,0,8,-,threaded\nF,11,0,0,0,3,1,c.bc\n";

    #[test]
    fn entries_have_paths_and_words() {
        let tree = Tree::new(OLD).unwrap();
        let told = |place| {
            let member = tree.field(place).unwrap();
            assert_eq!(member.place, place as usize);
            (member.line, member.path.as_str(), member.text.as_str())
        };
        assert_eq!(told(2), (2, "$fields.bars", "array, with an element"));
        assert_eq!(told(3), (3, "$fields.bars[]", "object"));
        assert_eq!(told(4), (4, "$fields.bars[].threaded", "boolean"));
        assert_eq!(told(5), (5, "$fields.\"c.b\"", "union, tag \"c\""));
        assert_eq!(tree.field(1), None);
        assert_eq!(tree.field(6), None);
        assert_eq!(tree.record().text, "closed, with 2 fields");
        assert_eq!(tree.arguments(), None);
    }

    #[test]
    fn lines_are_those_of_the_file() {
        let tree = Tree::new(b"H,0,2,-,0\nF,1,0,0,0,3,-,a\nb\nF,1,0,0,0,1,-,c\n").unwrap();
        let told = tree
            .field(3)
            .map(|member| (member.line, member.path.as_str()));
        assert_eq!(told, Some((4, "$fields.c")));
        let told = tree.field(2).map(|member| member.path.as_str());
        assert_eq!(told, Some("$fields.\"a\\nb\""));
    }

    #[test]
    fn what_has_grown_is_told_in_the_order_of_the_sheet() {
        let new = b"H,1,3,1,0\nF,6,0,1,0,4,-,bars\nF,7,1,0,2,0,-,\nF,7,0,0,1,1,-,o\nF,1,0,0,0,1,-,p\nF,4,0,0,0,8,-,threaded\nF,11,1,0,0,3,1,c.bc\nF,2,0,0,0,1,-,z\n";
        let (old, new) = (Tree::new(OLD).unwrap(), Tree::new(new).unwrap());
        let told: Vec<(&str, String, usize)> = grown(&old, &new)
            .into_iter()
            .map(|growth| match growth {
                Growth::Opened { old, new } => {
                    assert_eq!(old.path, new.path);
                    ("opened", new.path, new.place)
                }
                Growth::Added { new, below } => {
                    assert_eq!(below, usize::from(new.path.ends_with('o')));
                    ("added", new.path, new.place)
                }
                Growth::Arguments { new } => ("came", new.path, new.place),
            })
            .collect();
        let expected = [
            ("opened", "$fields", 1),
            ("came", "$args", 1),
            ("opened", "$fields.bars[]", 3),
            ("added", "$fields.bars[].o", 4),
            ("opened", "$fields.\"c.b\"", 7),
            ("added", "$fields.z", 8),
        ];
        let expected = expected.map(|(word, path, place)| (word, path.to_owned(), place));
        assert_eq!(told, expected);
        assert_eq!(grown(&old, &old), []);
    }
}
