//! The shape of a rule (docs/FORMAT.md, "Rules as JSON"), walked in the order of its sheet's entries. What is still to be walked waits in a list, so nesting costs no stack.

use super::fault::Fault;
use super::tree::{Content, Part};
use crate::limits::{MAX_RULE_ENTRIES, MAX_SHEET_BYTES, MAX_TEXT_BYTES};
use crate::near::nearest;
use crate::vocabulary::{CompareOp, Nesting, Operator};
use std::ops::Range;

type Walked<T> = Result<T, Fault>;

/// Where in a text an entry of its sheet comes from.
///
/// ```
/// use entity_rules::json::origins;
///
/// let text = br#"{"assert": {"for_all": {"as": "bar", "in": "$fields.bars", "that": true}}}"#;
/// let origins = origins(text)?;
/// let said: Vec<_> = origins.iter().map(|origin| std::str::from_utf8(&text[origin.span.clone()])).collect::<Result<_, _>>()?;
/// assert_eq!(said[1..], ["\"for_all\"", "\"$fields.bars\"", "true"]);
/// assert_eq!(origins[1].texts[0], Some(30..35));
/// # Ok::<(), Box<dyn std::error::Error>>(())
/// ```
#[derive(Clone, Debug, PartialEq, Eq, Hash)]
pub struct Origin {
    /// The whole rule for its head, the name of a condition's operator, a value, or the name of a member.
    pub span: Range<usize>,
    /// The strings that are texts of the entry: the rule's name and message, a quantifier's bind, a string or a member's name.
    pub texts: [Option<Range<usize>>; 2],
}

/// What becomes of a text: where its entries come from, and the first limit that they pass.
pub struct Laid {
    pub origins: Vec<Origin>,
    pub over: Option<Fault>,
}

/// What is to be walked, and how deep it lies among its like.
enum Task<'a> {
    Condition(Part<'a>, usize),
    Value(Part<'a>, usize),
    Key(Part<'a>),
}

struct Walk<'a> {
    text: &'a [u8],
    laid: Laid,
    /// How many bytes the entries take.
    bytes: usize,
    /// The next one last.
    tasks: Vec<Task<'a>>,
}

/// Walks a rule, or says where it stops being one.
pub fn walk(text: &[u8], rule: Part<'_>) -> Walked<Laid> {
    let mut walk = Walk::new(text);
    walk.rule(rule)?;
    walk.finish()
}

/// Walks a condition, whose sheet is that of a rule without name and message.
pub fn walk_condition(text: &[u8], condition: Part<'_>) -> Walked<Laid> {
    let mut walk = Walk::new(text);
    walk.headed(condition.span(), "R,-,-,");
    walk.tasks.push(Task::Condition(condition, 1));
    walk.finish()
}

/// Walks a value, whose sheet is a template's.
pub fn walk_value(text: &[u8], value: Part<'_>) -> Walked<Laid> {
    let mut walk = Walk::new(text);
    walk.headed(value.span(), "T");
    walk.tasks.push(Task::Value(value, 1));
    walk.finish()
}

impl<'a> Walk<'a> {
    const fn new(text: &'a [u8]) -> Self {
        Self {
            text,
            laid: Laid {
                origins: Vec::new(),
                over: None,
            },
            bytes: 0,
            tasks: Vec::new(),
        }
    }

    /// Walks what is left.
    fn finish(mut self) -> Walked<Laid> {
        while let Some(task) = self.tasks.pop() {
            match task {
                Task::Condition(part, depth) => self.condition(part, depth)?,
                Task::Value(part, depth) => self.value(part, depth),
                Task::Key(part) => self.texts("K", part.span(), [Some(part), None]),
            }
        }
        Ok(self.laid)
    }

    fn fail<T>(&self, part: Part<'_>, reason: impl Into<String>) -> Walked<T> {
        Err(Fault::new(self.text, part.span().start, reason))
    }

    /// Notes that a limit is passed, unless one was before.
    fn passes(&mut self, byte: usize, reason: impl FnOnce() -> String) {
        if self.laid.over.is_none() {
            self.laid.over = Some(Fault::new(self.text, byte, reason()));
        }
    }

    /// An entry that takes so many bytes.
    fn entry(&mut self, span: Range<usize>, texts: [Option<Range<usize>>; 2], bytes: usize) {
        let start = span.start;
        self.bytes = self.bytes.saturating_add(bytes);
        self.laid.origins.push(Origin { span, texts });
        if self.laid.origins.len() > MAX_RULE_ENTRIES {
            self.passes(start, || {
                "here the sheet passes 2,048 entries, the most that one may have".to_owned()
            });
        }
        if self.bytes > MAX_SHEET_BYTES {
            self.passes(start, || {
                "here the sheet passes 30,000 bytes, the most that one may have".to_owned()
            });
        }
    }

    /// An entry without a text, whose head has as many bytes as this one.
    fn headed(&mut self, span: Range<usize>, head: &str) {
        self.entry(span, [None, None], head.len().saturating_add(1));
    }

    /// An entry that has such texts after its head and their lengths.
    fn texts(&mut self, head: &str, span: Range<usize>, texts: [Option<Part<'a>>; 2]) {
        let mut bytes = head.len().saturating_add(2);
        for text in texts.into_iter().flatten() {
            let length = text.said().len();
            bytes = bytes.saturating_add(length);
            bytes = bytes.saturating_add(length.to_string().len().saturating_add(1));
            if length > MAX_TEXT_BYTES {
                self.passes(text.span().start, || {
                    format!("this text has {length} bytes, and 512 are the most that one may have")
                });
            }
        }
        self.entry(span, texts.map(|text| text.map(|text| text.span())), bytes);
    }

    fn nests(&mut self, part: Part<'_>, depth: usize, nesting: Nesting) {
        let limit = nesting.limit();
        if depth > limit {
            self.passes(part.span().start, || {
                format!("{nesting} nest over {limit} deep here")
            });
        }
    }

    fn rule(&mut self, part: Part<'a>) -> Walked<()> {
        if *part.content() != Content::Object {
            let noun = part.content().noun();
            return self.fail(
                part,
                format!("a rule is an object with the member `assert`, not {noun}"),
            );
        }
        let [name, assert, message] = self.parts("a rule", part, ["name", "assert", "message"])?;
        let name = self.optional("name", name)?;
        let message = self.optional("message", message)?;
        let Some(assert) = assert else {
            return self.fail(part, "this rule has no member `assert`");
        };
        // An absent text has a dash and a comma.
        let dashes = [name, message].iter().filter(|text| text.is_none()).count();
        self.bytes = self.bytes.saturating_add(dashes.saturating_mul(2));
        self.texts("R", part.span(), [name, message]);
        self.tasks.push(Task::Condition(assert, 1));
        Ok(())
    }

    /// The members of these names, and no others.
    fn parts<const N: usize>(
        &self,
        what: &str,
        object: Part<'a>,
        names: [&str; N],
    ) -> Walked<[Option<Part<'a>>; N]> {
        let mut parts = [None; N];
        for (key, value) in object.members() {
            let name = key.said();
            let mut places = parts.iter_mut().zip(names);
            match places.find(|(_, known)| *known == name) {
                Some((place, _)) => *place = Some(value),
                None => {
                    let known = quoted(&names);
                    let meant = meant(name, names);
                    let meant = meant.unwrap_or(format!("; its members are {known}"));
                    return self.fail(key, format!("{what} has no member {name:?}{meant}"));
                }
            }
        }
        Ok(parts)
    }

    /// A text that may be null, which is as good as absent.
    fn optional(&self, name: &str, part: Option<Part<'a>>) -> Walked<Option<Part<'a>>> {
        match part.map(|part| (part, part.content())) {
            None | Some((_, Content::Null)) => Ok(None),
            Some((part, Content::String(_))) => Ok(Some(part)),
            Some((part, other)) => {
                let noun = other.noun();
                self.fail(part, format!("`{name}` is a string or null, not {noun}"))
            }
        }
    }

    fn condition(&mut self, part: Part<'a>, depth: usize) -> Walked<()> {
        self.nests(part, depth, Nesting::Conditions);
        match part.content() {
            Content::Bool(_) => {
                self.headed(part.span(), "C,1,1,");
                Ok(())
            }
            Content::Object => {
                let mut members = part.members();
                let Some((key, operand)) = members.next() else {
                    return self.fail(part, "a condition has one operator, and this object none");
                };
                let operator = self.operator(key)?;
                if let Some((second, _)) = members.next() {
                    let name = second.said();
                    return self.fail(
                        second,
                        format!("a condition has one operator, and {name:?} is a second; `all` and `any` take several conditions"),
                    );
                }
                self.operation(key, operator, operand, depth)
            }
            other => {
                let noun = other.noun();
                self.fail(
                    part,
                    format!(
                        "a condition is `true`, `false` or an object with one operator, not {noun}"
                    ),
                )
            }
        }
    }

    fn operator(&self, key: Part<'_>) -> Walked<Operator> {
        let name = key.said();
        // A literal is written as `true` or `false`.
        let operators = Operator::ALL.iter().copied();
        let operators = operators.filter(|operator| *operator != Operator::Literal);
        match operators.clone().find(|operator| operator.text() == name) {
            Some(operator) => Ok(operator),
            None => {
                let meant = meant(name, operators.map(Operator::text)).unwrap_or_default();
                self.fail(key, format!("there is no operator `{name}`{meant}"))
            }
        }
    }

    /// A condition whose operator has this name and this operand.
    fn operation(
        &mut self,
        key: Part<'a>,
        operator: Operator,
        operand: Part<'a>,
        depth: usize,
    ) -> Walked<()> {
        let below = depth.saturating_add(1);
        let number = operator.number();
        match operator {
            Operator::All | Operator::Any => {
                self.expect(operator, operand, &Content::Array, "an array of conditions")?;
                let children: Vec<Part<'a>> = operand.elements().collect();
                self.headed(key.span(), &format!("C,{number},{},", children.len()));
                let tasks = children.into_iter().rev();
                self.tasks
                    .extend(tasks.map(|child| Task::Condition(child, below)));
            }
            Operator::Not => {
                self.headed(key.span(), "C,4,0,");
                self.tasks.push(Task::Condition(operand, below));
            }
            Operator::Exists | Operator::Truthy => {
                self.headed(key.span(), &format!("C,{number},0,"));
                self.tasks.push(Task::Value(operand, 1));
            }
            Operator::Compare => self.comparison(key, operator, operand)?,
            Operator::ForAll | Operator::ForAny => {
                self.quantifier(key, operator, operand, below)?;
            }
            _ => self.two(key, operator, operand)?,
        }
        Ok(())
    }

    /// That an operator has such an operand.
    fn expect(
        &self,
        operator: Operator,
        operand: Part<'_>,
        content: &Content,
        what: &str,
    ) -> Walked<()> {
        match operand.content() {
            given if given == content => Ok(()),
            given => {
                let noun = given.noun();
                self.fail(operand, format!("`{operator}` takes {what}, not {noun}"))
            }
        }
    }

    fn two(&mut self, key: Part<'a>, operator: Operator, operand: Part<'a>) -> Walked<()> {
        self.expect(operator, operand, &Content::Array, "an array of two values")?;
        let values: Vec<Part<'a>> = operand.elements().collect();
        let [left, right] = values.as_slice() else {
            let count = values.len();
            return self.fail(
                operand,
                format!("`{operator}` takes an array of two values, and this one has {count}"),
            );
        };
        let number = operator.number();
        self.headed(key.span(), &format!("C,{number},0,"));
        self.tasks.push(Task::Value(*right, 1));
        self.tasks.push(Task::Value(*left, 1));
        Ok(())
    }

    /// The members of an operator's object, each of which it must have.
    fn members<const N: usize>(
        &self,
        operator: Operator,
        operand: Part<'a>,
        names: [&str; N],
    ) -> Walked<[Part<'a>; N]> {
        let what = format!("an object with {}", quoted(&names));
        self.expect(operator, operand, &Content::Object, &what)?;
        let parts = self.parts(&format!("`{operator}`"), operand, names)?;
        if let Some((_, name)) = parts.iter().zip(names).find(|(part, _)| part.is_none()) {
            return self.fail(operand, format!("this `{operator}` has no member `{name}`"));
        }
        Ok(parts.map(|part| part.unwrap_or(operand)))
    }

    fn comparison(&mut self, key: Part<'a>, operator: Operator, operand: Part<'a>) -> Walked<()> {
        let [left, op, right] = self.members(operator, operand, ["left", "op", "right"])?;
        let names = CompareOp::ALL.iter().map(|op| op.text());
        let Content::String(given) = op.content() else {
            let (known, noun) = (names.collect::<Vec<_>>(), op.content().noun());
            return self.fail(op, format!("`op` is one of {}, not {noun}", quoted(&known)));
        };
        if !names.clone().any(|name| name == given) {
            let known: Vec<&str> = names.clone().collect();
            let meant = meant(given, names).unwrap_or_default();
            let known = quoted(&known);
            return self.fail(op, format!("`op` is one of {known}, not {given:?}{meant}"));
        }
        self.headed(key.span(), "C,18,1,");
        self.tasks.push(Task::Value(right, 1));
        self.tasks.push(Task::Value(left, 1));
        Ok(())
    }

    fn quantifier(
        &mut self,
        key: Part<'a>,
        operator: Operator,
        operand: Part<'a>,
        below: usize,
    ) -> Walked<()> {
        let [over, bind, body] = self.members(operator, operand, ["in", "as", "that"])?;
        if !matches!(bind.content(), Content::String(_)) {
            let noun = bind.content().noun();
            return self.fail(bind, format!("`as` is a string, the bind, not {noun}"));
        }
        let number = operator.number();
        self.texts(&format!("C,{number}"), key.span(), [Some(bind), None]);
        self.tasks.push(Task::Condition(body, below));
        self.tasks.push(Task::Value(over, 1));
        Ok(())
    }

    fn value(&mut self, part: Part<'a>, depth: usize) {
        self.nests(part, depth, Nesting::Values);
        let below = depth.saturating_add(1);
        match part.content() {
            Content::Null | Content::Bool(_) => self.headed(part.span(), "V,1,0,"),
            Content::Number(_) => self.texts("V,4", part.span(), [Some(part), None]),
            Content::String(_) | Content::Key(_) => {
                self.texts("V,5", part.span(), [Some(part), None]);
            }
            Content::Array => {
                let tasks: Vec<Task<'a>> = part
                    .elements()
                    .map(|element| Task::Value(element, below))
                    .collect();
                self.headed(part.span(), &format!("V,6,{},", tasks.len()));
                self.tasks.extend(tasks.into_iter().rev());
            }
            Content::Object => {
                let members: Vec<(Part<'a>, Part<'a>)> = part.members().collect();
                self.headed(part.span(), &format!("V,7,{},", members.len()));
                for (key, value) in members.into_iter().rev() {
                    self.tasks.push(Task::Value(value, below));
                    self.tasks.push(Task::Key(key));
                }
            }
        }
    }
}

/// After a name that is not known: the one that was likely meant.
pub fn meant<'a>(given: &str, names: impl IntoIterator<Item = &'a str>) -> Option<String> {
    nearest(given, names).map(|name| format!("; did you mean `{name}`?"))
}

/// Names as they are listed.
pub fn quoted(names: &[&str]) -> String {
    let names: Vec<String> = names.iter().map(|name| format!("`{name}`")).collect();
    match names.split_last() {
        Some((last, [])) => last.clone(),
        Some((last, others)) => format!("{} and {last}", others.join(", ")),
        None => String::new(),
    }
}
