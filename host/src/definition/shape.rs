//! The shape of a definition, type by type as entity-runtime's definition.rs has them. What is still to be looked at waits in a list, so nesting costs no stack.

use crate::json::{Content, Fault, Part, Tree, meant, quoted, repeated, walk, walk_condition};

/// What a value of a definition must be.
#[derive(Clone, Copy)]
enum Shape {
    /// Whatever JSON has.
    Any,
    Text,
    Truth,
    /// A whole number from 0 to this one.
    Whole(u64),
    Number,
    /// One of these words.
    Word(&'static [&'static str]),
    List(&'static Shape),
    /// An object with members of any name.
    Map(&'static Shape),
    Struct(&'static Struct),
    /// A text, or a list of texts.
    OneOrMany,
    /// What an outcome does: a word, or a move.
    Effect,
    Rule,
    Condition,
}

struct Struct {
    noun: &'static str,
    members: &'static [Member],
    /// A name that stands for another one, of which it takes the place.
    alias: Option<[&'static str; 2]>,
}

struct Member {
    name: &'static str,
    presence: Presence,
    shape: Shape,
}

#[derive(Clone, Copy, PartialEq, Eq)]
enum Presence {
    Must,
    May,
    /// It may be there, and null is as good as absent.
    MayBeNull,
}

use Presence::{May, MayBeNull, Must};
use Shape::{Any, Condition, Effect, List, Map, Number, OneOrMany, Rule, Text, Truth, Whole, Word};

const fn member(name: &'static str, presence: Presence, shape: Shape) -> Member {
    Member {
        name,
        presence,
        shape,
    }
}

const fn of(noun: &'static str, members: &'static [Member]) -> Struct {
    Struct {
        noun,
        members,
        alias: None,
    }
}

/// What an outcome does that takes a word alone.
const PLAIN_EFFECTS: &[&str] = &["none", "creates", "updates"];

static DEFINITION: Struct = of(
    "a definition",
    &[
        member("entity", Must, Text),
        member("version", May, Whole(u32::MAX as u64)),
        member("schema", Must, Shape::Struct(&OBJECT_SCHEMA)),
        member("lifecycle", Must, Shape::Struct(&LIFECYCLE)),
        member("invariants", May, List(&Rule)),
        member("create", May, Shape::Struct(&CREATE)),
        member("operations", May, Map(&Shape::Struct(&OPERATION))),
        member("projections", May, Map(&Shape::Struct(&PROJECTION))),
        member(
            "semantics",
            May,
            Word(&["kernel/1", "service/1", "service/2", "service/3"]),
        ),
        member("identity", MayBeNull, Shape::Struct(&IDENTITY)),
        member("relations", May, Map(&Shape::Struct(&RELATION))),
        member("scales", May, Map(&List(&Text))),
        member("number_observation", May, Word(&["source-number/1"])),
    ],
);

static IDENTITY: Struct = of("an identity", &[member("field", Must, Text)]);

static RELATION: Struct = of(
    "a relation",
    &[
        member("kind", Must, Word(&["owns", "references"])),
        member("target", Must, Text),
        member("cardinality", Must, Word(&["one", "many"])),
        member("via", Must, Text),
    ],
);

static PROJECTION: Struct = of(
    "a projection",
    &[
        member("key", Must, Text),
        member("in_state", MayBeNull, Text),
    ],
);

static OBJECT_SCHEMA: Struct = of(
    "a schema",
    &[
        member("fields", May, Map(&Shape::Struct(&FIELD))),
        member("additional_fields", May, Truth),
    ],
);

static FIELD: Struct = of(
    "a field",
    &[
        member(
            "type",
            Must,
            Word(&[
                "string", "integer", "number", "boolean", "enum", "array", "object", "json", "ref",
                "map", "union", "binary64",
            ]),
        ),
        member("required", May, Truth),
        member("default", May, Any),
        member("min_length", MayBeNull, Whole(u64::MAX)),
        member("max_length", MayBeNull, Whole(u64::MAX)),
        member("alphabet", MayBeNull, Text),
        member("min", MayBeNull, Number),
        member("max", MayBeNull, Number),
        member("values", May, List(&Text)),
        member("items", MayBeNull, Shape::Struct(&FIELD)),
        member("properties", May, Map(&Shape::Struct(&FIELD))),
        member("additional_properties", May, Truth),
        member("entity", MayBeNull, Text),
        member("inverse", MayBeNull, Text),
        member("acyclic", MayBeNull, Truth),
        member(
            "key",
            MayBeNull,
            Word(&[
                "string",
                "boolean",
                "integer",
                "decimal",
                "timestamp",
                "duration",
                "uuid",
                "bytes",
            ]),
        ),
        member("tag", MayBeNull, Text),
        member("variants", May, Map(&Shape::Struct(&FIELD))),
    ],
);

static LIFECYCLE: Struct = of(
    "a lifecycle",
    &[
        member("initial", Must, Text),
        member("states", Must, List(&Text)),
    ],
);

static CREATE: Struct = of(
    "`create`",
    &[
        member("emit", MayBeNull, Shape::Struct(&EVENT)),
        member("arguments", May, Shape::Struct(&OBJECT_SCHEMA)),
        member("response", May, Shape::Struct(&OBJECT_SCHEMA)),
        member("outcomes", May, List(&Shape::Struct(&OUTCOME))),
    ],
);

static OPERATION: Struct = Struct {
    noun: "an operation",
    members: &[
        member("arguments", May, Shape::Struct(&OBJECT_SCHEMA)),
        member("transitions", May, List(&Shape::Struct(&TRANSITION))),
        member("preconditions", May, List(&Rule)),
        member("set", May, Map(&Any)),
        member("emits", May, List(&Shape::Struct(&EVENT))),
        member("emit", May, List(&Shape::Struct(&EVENT))),
        member("response", May, Shape::Struct(&OBJECT_SCHEMA)),
        member("outcomes", May, List(&Shape::Struct(&OUTCOME))),
    ],
    alias: Some(["emit", "emits"]),
};

static TRANSITION: Struct = of(
    "a transition",
    &[member("from", Must, OneOrMany), member("to", Must, Text)],
);

static OUTCOME: Struct = of(
    "an outcome",
    &[
        member("name", Must, Text),
        member("when", MayBeNull, Condition),
        member("in_state", MayBeNull, Text),
        member("wrong_state", May, Truth),
        member("effect", May, Effect),
        member("set", May, Map(&Any)),
        member("fulfills", May, Map(&Shape::Struct(&REQUIREMENT))),
        member(
            "set_if_present",
            May,
            Map(&Shape::Struct(&PRESENT_ARGUMENT)),
        ),
        member("emits", May, List(&Shape::Struct(&EVENT))),
        member("responds", May, Map(&Any)),
        member(
            "responds_if_present",
            May,
            Map(&Shape::Struct(&PRESENT_ARGUMENT)),
        ),
        member("refuses", MayBeNull, Shape::Struct(&REFUSAL)),
    ],
);

static REQUIREMENT: Struct = of(
    "a member of `fulfills`",
    &[member("actions", Must, Word(&["required", "optional"]))],
);

static PRESENT_ARGUMENT: Struct = of("an argument's path", &[member("argument", Must, Text)]);

static MOVE: Struct = of(
    "`moves`",
    &[member("to", Must, Text), member("from", Must, OneOrMany)],
);

static REFUSAL: Struct = of(
    "`refuses`",
    &[
        member("error", Must, Text),
        member("message", MayBeNull, Text),
    ],
);

static EVENT: Struct = of(
    "an event",
    &[
        member("type", Must, Text),
        member("payload", May, Any),
        member(
            "payload_if_present",
            May,
            Map(&Shape::Struct(&PRESENT_ARGUMENT)),
        ),
    ],
);

type Looked = Result<(), Fault>;

struct Look<'a> {
    text: &'a [u8],
    /// What is still to be looked at, the next one last.
    tasks: Vec<(Part<'a>, Shape)>,
}

/// That a text which was read has the shape of a definition, or the first place where it has not.
pub fn look(text: &[u8], tree: &Tree) -> Looked {
    if let Some(fault) = repeated(text, tree) {
        return Err(fault);
    }
    let mut look = Look {
        text,
        tasks: vec![(tree.root(), Shape::Struct(&DEFINITION))],
    };
    while let Some((part, shape)) = look.tasks.pop() {
        look.at(part, shape)?;
    }
    Ok(())
}

impl<'a> Look<'a> {
    fn fail(&self, part: Part<'_>, reason: impl Into<String>) -> Looked {
        Err(Fault::new(self.text, part.span().start, reason))
    }

    /// That something else was expected.
    fn expected(&self, part: Part<'_>, what: &str) -> Looked {
        let noun = part.content().noun();
        self.fail(part, format!("expected {what}, not {noun}"))
    }

    fn at(&mut self, part: Part<'a>, shape: Shape) -> Looked {
        match (shape, part.content()) {
            (Shape::Any, _) => Ok(()),
            (Shape::Text, Content::String(_)) => Ok(()),
            (Shape::Text, _) => self.expected(part, "a string"),
            (Shape::Truth, Content::Bool(_)) => Ok(()),
            (Shape::Truth, _) => self.expected(part, "`true` or `false`"),
            (Shape::Number, Content::Number(_)) => Ok(()),
            (Shape::Number, _) => self.expected(part, "a number"),
            (Shape::Whole(most), _) => self.whole(part, most),
            (Shape::Word(words), _) => self.word(part, words),
            (Shape::List(shape), Content::Array) => {
                self.later(part.elements().map(|element| (element, *shape)));
                Ok(())
            }
            (Shape::List(_), _) => self.expected(part, "an array"),
            (Shape::Map(shape), Content::Object) => {
                self.later(part.members().map(|(_, value)| (value, *shape)));
                Ok(())
            }
            (Shape::Map(_), _) => self.expected(part, "an object"),
            (Shape::Struct(shape), Content::Object) => self.members(part, shape),
            (Shape::Struct(shape), other) => {
                let (what, noun) = (shape.noun, other.noun());
                self.fail(part, format!("{what} is an object, not {noun}"))
            }
            (Shape::OneOrMany, Content::String(_)) => Ok(()),
            (Shape::OneOrMany, Content::Array) => self.at(part, List(&Text)),
            (Shape::OneOrMany, _) => self.expected(part, "a string or an array of strings"),
            (Shape::Effect, _) => self.effect(part),
            (Shape::Rule, _) => walk(self.text, part).map(|_| ()),
            (Shape::Condition, _) => walk_condition(self.text, part).map(|_| ()),
        }
    }

    /// Puts parts off, the first one before the others.
    fn later(&mut self, parts: impl Iterator<Item = (Part<'a>, Shape)>) {
        let start = self.tasks.len();
        self.tasks.extend(parts);
        if let Some(added) = self.tasks.get_mut(start..) {
            added.reverse();
        }
    }

    fn whole(&self, part: Part<'_>, most: u64) -> Looked {
        match part.content() {
            Content::Number(text) if text.parse().is_ok_and(|number: u64| number <= most) => Ok(()),
            Content::Number(text) => {
                let what = format!("expected a whole number from 0 to {most}, not {text}");
                self.fail(part, what)
            }
            _ => self.expected(part, "a whole number"),
        }
    }

    fn word(&self, part: Part<'_>, words: &[&str]) -> Looked {
        let Content::String(given) = part.content() else {
            return self.expected(part, &format!("one of {}", quoted(words)));
        };
        match words.contains(&given.as_str()) {
            true => Ok(()),
            false => {
                let meant = meant(given, words.iter().copied()).unwrap_or_default();
                let known = quoted(words);
                self.fail(
                    part,
                    format!("expected one of {known}, not {given:?}{meant}"),
                )
            }
        }
    }

    fn effect(&mut self, part: Part<'a>) -> Looked {
        if *part.content() != Content::Object {
            return self.word(part, PLAIN_EFFECTS);
        }
        let members: Vec<_> = part.members().collect();
        match members.as_slice() {
            [(key, value)] if key.said() == "moves" => {
                self.tasks.push((*value, Shape::Struct(&MOVE)));
                Ok(())
            }
            _ => {
                let known = quoted(PLAIN_EFFECTS);
                let what = format!("expected {known} or an object with `moves` alone");
                self.fail(part, what)
            }
        }
    }

    /// The members of a struct: every one that it must have, and no others.
    fn members(&mut self, part: Part<'a>, shape: &'static Struct) -> Looked {
        let names = || shape.members.iter().map(|member| member.name);
        let mut found = Vec::new();
        for (key, value) in part.members() {
            let name = key.said();
            let Some(member) = shape.members.iter().find(|member| member.name == name) else {
                let known: Vec<&str> = names().collect();
                let meant = meant(name, names());
                let meant = meant.unwrap_or(format!("; its members are {}", quoted(&known)));
                let noun = shape.noun;
                return self.fail(key, format!("{noun} has no member {name:?}{meant}"));
            };
            let is_absent = member.presence == MayBeNull && *value.content() == Content::Null;
            found.extend((!is_absent).then_some((key, value, member)));
        }
        self.complete(part, shape, &found)?;
        self.later(
            found
                .into_iter()
                .map(|(_, value, member)| (value, member.shape)),
        );
        Ok(())
    }

    /// That none is missing, and none is there by two names.
    fn complete(
        &self,
        part: Part<'_>,
        shape: &Struct,
        found: &[(Part<'_>, Part<'_>, &Member)],
    ) -> Looked {
        let find = |name: &str| found.iter().find(|(key, _, _)| key.said() == name);
        let is_missing = |member: &&Member| member.presence == Must && find(member.name).is_none();
        if let Some(member) = shape.members.iter().find(is_missing) {
            let (noun, name) = (shape.noun, member.name);
            return self.fail(
                part,
                format!("{noun} has the member `{name}`, and this one has none"),
            );
        }
        let both = shape.alias.and_then(|[alias, name]| {
            let (key, _, _) = find(alias)?;
            find(name).map(|_| (key, alias, name))
        });
        match both {
            None => Ok(()),
            Some((key, alias, name)) => self.fail(
                *key,
                format!("`{alias}` is another name of `{name}`; expected one of them"),
            ),
        }
    }
}
