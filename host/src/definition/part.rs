//! A value of a definition whose shape is known, and the way to it.

use crate::json::{Content, Part};

/// A value of the text, and its pointer (RFC 6901).
#[derive(Clone)]
pub struct At<'a> {
    pub part: Part<'a>,
    pub pointer: String,
}

impl<'a> At<'a> {
    pub const fn root(part: Part<'a>) -> Self {
        Self {
            part,
            pointer: String::new(),
        }
    }

    fn below(&self, step: &str, part: Part<'a>) -> Self {
        let step = step.replace('~', "~0").replace('/', "~1");
        Self {
            part,
            pointer: format!("{}/{step}", self.pointer),
        }
    }

    /// The member of that name, if there is one.
    pub fn member(&self, name: &str) -> Option<Self> {
        let mut members = self.part.members();
        let (_, value) = members.find(|(key, _)| key.said() == name)?;
        Some(self.below(name, value))
    }

    /// The same, where null is as good as absent.
    pub fn option(&self, name: &str) -> Option<Self> {
        self.member(name)
            .filter(|member| *member.part.content() != Content::Null)
    }

    /// The elements of that member; none where it is absent.
    pub fn list(&self, name: &str) -> Vec<Self> {
        let Some(list) = self.member(name) else {
            return Vec::new();
        };
        let elements = list.part.elements().enumerate();
        elements
            .map(|(index, element)| list.below(&index.to_string(), element))
            .collect()
    }

    /// The members of that member by rising bytes of their names; none where it is absent.
    pub fn sorted(&self, name: &str) -> Vec<(&'a str, Self)> {
        let Some(map) = self.member(name) else {
            return Vec::new();
        };
        let members = map.part.members();
        let mut members: Vec<_> = members
            .map(|(key, value)| (key.said(), map.below(key.said(), value)))
            .collect();
        members.sort_by_key(|(name, _)| *name);
        members
    }

    /// The text of that member; empty where it is absent.
    pub fn text(&self, name: &str) -> &'a str {
        self.member(name).map_or("", |member| member.part.said())
    }

    /// Whether that member is `true`.
    pub fn is_true(&self, name: &str) -> bool {
        self.member(name)
            .is_some_and(|member| *member.part.content() == Content::Bool(true))
    }
}
