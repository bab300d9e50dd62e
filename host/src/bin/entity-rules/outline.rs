//! A sheet as a tree, read for display: the place of an entry, how it is reached, and which binds can be read there.

use entity_rules::Operator;
use entity_rules::entries::{Content, Entry};

/// How an entry is reached.
#[derive(Debug, PartialEq, Eq)]
pub struct Reached<'a> {
    /// After the label, as `.assert.all[1]`.
    pub path: String,
    /// The quantifiers in whose bodies it lies, the outermost first.
    pub binders: Vec<Binder<'a>>,
}

/// A quantifier's bind, and what it goes over.
#[derive(Clone, Copy, Debug, PartialEq, Eq)]
pub struct Binder<'a> {
    pub bind: &'a str,
    /// The text of `in`; empty where it is not a string.
    pub over: &'a str,
}

/// An entry on the way, and how many of those that belong to it are met.
struct Frame<'a> {
    content: Content<'a>,
    step: String,
    met: usize,
    over: &'a str,
}

/// The place of an entry.
pub struct Standing<'a> {
    /// How many entries it lies below.
    pub depth: usize,
    /// The entry that it belongs to, and which of those it is, from 0.
    pub parent: Option<(Content<'a>, usize)>,
}

/// How the entry of that place is reached, in a sheet that is well formed.
pub fn reached<'a>(entries: &[Entry<'a>], place: u32) -> Option<Reached<'a>> {
    let place = usize::try_from(place).ok()?;
    let mut frames: Vec<Frame<'a>> = Vec::new();
    for entry in entries.iter().take(place) {
        enter(&mut frames, entry.content);
    }
    (entries.len() >= place && place > 0).then(|| Reached {
        path: frames.iter().map(|frame| frame.step.as_str()).collect(),
        binders: frames.iter().filter_map(Frame::binder).collect(),
    })
}

/// The place of each entry, in a sheet that is well formed.
pub fn standings<'a>(entries: &[Entry<'a>]) -> Vec<Standing<'a>> {
    let mut frames: Vec<Frame<'a>> = Vec::new();
    let standing = |entry: &Entry<'a>| {
        enter(&mut frames, entry.content);
        let depth = frames.len().saturating_sub(1);
        let parent = depth.checked_sub(1).and_then(|at| frames.get(at));
        Standing {
            depth,
            parent: parent.map(|frame| (frame.content, frame.met.saturating_sub(1))),
        }
    };
    entries.iter().map(standing).collect()
}

/// Goes on to the next entry: leaves those to which nothing more belongs.
fn enter<'a>(frames: &mut Vec<Frame<'a>>, content: Content<'a>) {
    while frames.last().is_some_and(Frame::is_full) {
        frames.pop();
    }
    let step = frames.last().map(|frame| step(frame.content, frame.met));
    if let Some(frame) = frames.last_mut() {
        frame.meet(content);
    }
    frames.push(Frame {
        content,
        step: step.unwrap_or_default(),
        met: 0,
        over: "",
    });
}

impl<'a> Frame<'a> {
    fn is_full(&self) -> bool {
        self.met >= held(self.content)
    }

    /// Counts one of those that belong to it; the first of a quantifier's is what it goes over.
    fn meet(&mut self, content: Content<'a>) {
        if let (0, Content::String(text)) = (self.met, content) {
            self.over = text;
        }
        self.met = self.met.saturating_add(1);
    }

    /// The binder, in the body.
    fn binder(&self) -> Option<Binder<'a>> {
        match self.content {
            Content::Quantifier(_, bind) if self.met == 2 => Some(Binder {
                bind,
                over: self.over,
            }),
            _ => None,
        }
    }
}

/// How many entries belong to one, not counting what belongs to these.
fn held(content: Content<'_>) -> usize {
    match content {
        Content::Rule { .. } | Content::Template | Content::Key(_) => 1,
        Content::Condition(Operator::All | Operator::Any, count) => count,
        Content::Condition(Operator::Not | Operator::Exists | Operator::Truthy, _) => 1,
        Content::Condition(..) | Content::Compare(_) | Content::Quantifier(..) => 2,
        Content::Array(count) | Content::Object(count) => count,
        Content::Head {
            fields, arguments, ..
        } => fields.saturating_add(arguments.map_or(0, |(_, count)| count)),
        Content::Field {
            items, properties, ..
        } => properties.saturating_add(usize::from(items)),
        _ => 0,
    }
}

/// The part of a path that leads from an entry to one of those that belong to it (docs/FORMAT.md, "Paths").
fn step(content: Content<'_>, index: usize) -> String {
    match content {
        Content::Rule { .. } => ".assert".to_owned(),
        Content::Condition(operator @ (Operator::Not | Operator::Exists | Operator::Truthy), _) => {
            format!(".{operator}")
        }
        Content::Condition(operator, _) => format!(".{operator}[{index}]"),
        Content::Compare(_) if index == 0 => ".compare.left".to_owned(),
        Content::Compare(_) => ".compare.right".to_owned(),
        Content::Quantifier(operator, _) if index == 0 => format!(".{operator}.in"),
        Content::Quantifier(operator, _) => format!(".{operator}.that"),
        Content::Array(_) => format!("[{index}]"),
        Content::Key(key) => format!(".{key}"),
        _ => String::new(),
    }
}

#[cfg(test)]
#[allow(clippy::unwrap_used)]
mod tests {
    use super::*;
    use entity_rules::entries::read_rule;

    const RULE: &[u8] = b"R,-,-,\nC,2,3,\nC,4,0,\nC,18,1,\nV,1,0,\nV,6,1,\nV,7,1,\nK,1,k\nV,4,1,0\n\
        C,20,1,b\nV,5,9,$fields.a\nC,21,1,c\nV,5,2,$b\nC,12,0,\nV,5,2,$c\nV,2,0,\nC,5,0,\nV,5,3,$id\n";

    #[test]
    fn paths_are_spelled_as_in_the_answers() {
        let entries = read_rule(RULE).unwrap();
        let paths = (1..=18).map(|place| reached(&entries, place).unwrap().path);
        let expected = [
            "",
            ".assert",
            ".assert.all[0]",
            ".assert.all[0].not",
            ".assert.all[0].not.compare.left",
            ".assert.all[0].not.compare.right",
            ".assert.all[0].not.compare.right[0]",
            ".assert.all[0].not.compare.right[0]",
            ".assert.all[0].not.compare.right[0].k",
            ".assert.all[1]",
            ".assert.all[1].for_all.in",
            ".assert.all[1].for_all.that",
            ".assert.all[1].for_all.that.for_any.in",
            ".assert.all[1].for_all.that.for_any.that",
            ".assert.all[1].for_all.that.for_any.that.lt[0]",
            ".assert.all[1].for_all.that.for_any.that.lt[1]",
            ".assert.all[2]",
            ".assert.all[2].exists",
        ];
        assert_eq!(paths.collect::<Vec<_>>(), expected);
        assert_eq!(reached(&entries, 0), None);
        assert_eq!(reached(&entries, 19), None);
    }

    #[test]
    fn binds_are_read_in_bodies() {
        let entries = read_rule(RULE).unwrap();
        let binds = |place| {
            let binders = reached(&entries, place).unwrap().binders;
            binders
                .iter()
                .map(|binder| (binder.bind, binder.over))
                .collect::<Vec<_>>()
        };
        assert_eq!(binds(11), []);
        assert_eq!(binds(13), [("b", "$fields.a")]);
        assert_eq!(binds(15), [("b", "$fields.a"), ("c", "$b")]);
        assert_eq!(binds(18), []);
    }
}
