//! Rule sheets: rules and templates.

use super::content::{Content, Entry, Malformed};
use super::reader::{Read, Reader};
use super::whole::read;
use crate::limits::MAX_RULE_ENTRIES;
use crate::number::is_number;
use crate::vocabulary::{CompareOp, Nesting, Operator};
use std::collections::HashSet;

/// The entries of a rule sheet, of a rule or a template.
///
/// ```
/// use entity_rules::entries::read_rule;
///
/// assert_eq!(read_rule(b"T\nV,1,0,\n")?.len(), 2);
/// assert_eq!(
///     read_rule(b"T\nV,1,0,\nV,1,0,\n").map_err(|error| error.to_string()),
///     Err("entry 3, byte 9: expected the end of the sheet".to_owned())
/// );
/// # Ok::<(), entity_rules::entries::Malformed>(())
/// ```
///
/// # Errors
///
/// If the sheet is not well formed.
pub fn read_rule(sheet: &[u8]) -> Result<Vec<Entry<'_>>, Malformed> {
    read(sheet, MAX_RULE_ENTRIES, entries)
}

fn entries(reader: &mut Reader<'_>) -> Read<()> {
    let mut tasks = vec![match reader.first() {
        Some(b'T') => reader.template()?,
        _ => reader.rule()?,
    }];
    while let Some(task) = tasks.pop() {
        reader.perform(task, &mut tasks)?;
    }
    reader.end_of_sheet()
}

/// What is to be read. Tasks wait in a list, the next one at its end, so nesting costs no stack.
enum Task<'a> {
    Conditions {
        count: usize,
        depth: usize,
    },
    Values {
        count: usize,
        depth: usize,
    },
    /// Members of an object, and the keys of those before them.
    Members {
        count: usize,
        depth: usize,
        met: HashSet<&'a str>,
    },
}

impl<'a> Reader<'a> {
    /// The head of a rule; answers what follows it.
    fn rule(&mut self) -> Read<Task<'a>> {
        self.begin("R", "which begins a rule, or `T`, which begins a template")?;
        let name_length = self.length_or_dash("the rule's name")?;
        let message_length = self.length_or_dash("the rule's message")?;
        self.comma()?;
        let name = self.text_or_absent(name_length, "a name")?;
        let message = self.text_or_absent(message_length, "a message")?;
        self.end(Content::Rule { name, message })?;
        Ok(Task::Conditions { count: 1, depth: 1 })
    }

    /// The head of a template; answers what follows it.
    fn template(&mut self) -> Read<Task<'a>> {
        self.begin("T", "which begins a template")?;
        self.end(Content::Template)?;
        Ok(Task::Values { count: 1, depth: 1 })
    }

    /// Reads the first entry of a task, and adds what is left of it and what belongs to the entry.
    fn perform(&mut self, task: Task<'a>, tasks: &mut Vec<Task<'a>>) -> Read<()> {
        match task {
            Task::Conditions { count: 0, .. }
            | Task::Values { count: 0, .. }
            | Task::Members { count: 0, .. } => {}
            Task::Conditions { count, depth } => {
                tasks.push(Task::Conditions {
                    count: count.saturating_sub(1),
                    depth,
                });
                let content = self.condition(depth)?;
                tasks.extend(below_condition(content, depth.saturating_add(1)));
            }
            Task::Values { count, depth } => {
                tasks.push(Task::Values {
                    count: count.saturating_sub(1),
                    depth,
                });
                let content = self.value(depth)?;
                tasks.extend(below_value(content, depth.saturating_add(1)));
            }
            Task::Members {
                count,
                depth,
                mut met,
            } => {
                self.key(&mut met)?;
                tasks.push(Task::Members {
                    count: count.saturating_sub(1),
                    depth,
                    met,
                });
                tasks.push(Task::Values { count: 1, depth });
            }
        }
        Ok(())
    }

    fn condition(&mut self, depth: usize) -> Read<Content<'a>> {
        self.nests(depth, Nesting::Conditions)?;
        self.begin("C", "a condition")?;
        let operator = self.operator()?;
        let content = self.condition_content(operator)?;
        self.end(content)?;
        Ok(content)
    }

    fn value(&mut self, depth: usize) -> Read<Content<'a>> {
        self.nests(depth, Nesting::Values)?;
        self.begin("V", "a value")?;
        let number = self.numeral(1, 7, "the type of a value, 1 to 7")?;
        let content = self.value_content(number)?;
        self.end(content)?;
        Ok(content)
    }

    /// The key of a member, which no member before it has.
    fn key(&mut self, met: &mut HashSet<&'a str>) -> Read<()> {
        self.begin("K", "the key of a member")?;
        let length = self.length("the key")?;
        self.comma()?;
        let key = self.text(length, "a key")?;
        self.is_new(met, key)?;
        self.end(Content::Key(key))
    }

    fn operator(&mut self) -> Read<Operator> {
        const EXPECTED: &str = "an operator, 1 to 21";
        let number = self.numeral(1, 21, EXPECTED)?;
        let operator = u32::try_from(number).ok().and_then(Operator::from_number);
        operator.map_or_else(|| self.fail(EXPECTED), Ok)
    }

    /// The fields of a condition after its operator.
    fn condition_content(&mut self, operator: Operator) -> Read<Content<'a>> {
        let content = match operator {
            Operator::Literal => Content::Literal(self.mark("the truth of a literal, 0 or 1")?),
            Operator::All | Operator::Any => {
                Content::Condition(operator, self.count("conditions it has")?)
            }
            Operator::Compare => Content::Compare(self.comparison()?),
            Operator::ForAll | Operator::ForAny => {
                let length = self.length("the bind")?;
                self.comma()?;
                return Ok(Content::Quantifier(operator, self.text(length, "a bind")?));
            }
            _ => Content::Condition(operator, self.nothing(operator.text())?),
        };
        self.comma()?;
        Ok(content)
    }

    fn comparison(&mut self) -> Read<CompareOp> {
        const EXPECTED: &str = "a comparison, 1 to 6";
        let number = self.numeral(1, 6, EXPECTED)?;
        let op = u32::try_from(number).ok().and_then(CompareOp::from_number);
        op.map_or_else(|| self.fail(EXPECTED), Ok)
    }

    /// The 0 of an entry that has nothing to count.
    fn nothing(&mut self, what: &str) -> Read<usize> {
        self.numeral(0, 0, &format!("0 here, since `{what}` has no count"))
    }

    /// The fields of a value after its type.
    fn value_content(&mut self, number: usize) -> Read<Content<'a>> {
        let content = match number {
            4 => return self.number(),
            5 => {
                let length = self.length("the string")?;
                self.comma()?;
                return Ok(Content::String(self.text(length, "a string")?));
            }
            6 => Content::Array(self.count("elements the array has")?),
            7 => Content::Object(self.count("members the object has")?),
            constant => {
                self.nothing("null, false or true")?;
                match constant {
                    1 => Content::Null,
                    constant => Content::Bool(constant == 3),
                }
            }
        };
        self.comma()?;
        Ok(content)
    }

    fn number(&mut self) -> Read<Content<'a>> {
        let length = self.length("the number")?;
        self.comma()?;
        let start = self.byte();
        let text = self.text(length, "a number")?;
        match is_number(text) {
            true => Ok(Content::Number(text)),
            false => self.fail_at(start, format!("a number as JSON writes it, not {text:?}")),
        }
    }
}

/// What follows a condition's entry, the first at the end.
fn below_condition(content: Content<'_>, depth: usize) -> Vec<Task<'_>> {
    let conditions = |count| Task::Conditions { count, depth };
    let values = |count| Task::Values { count, depth: 1 };
    match content {
        Content::Literal(_) => vec![],
        Content::Condition(Operator::All | Operator::Any, count) => vec![conditions(count)],
        Content::Condition(Operator::Not, _) => vec![conditions(1)],
        Content::Condition(Operator::Exists | Operator::Truthy, _) => vec![values(1)],
        Content::Quantifier(..) => vec![conditions(1), values(1)],
        _ => vec![values(2)],
    }
}

/// What follows a value's entry.
fn below_value(content: Content<'_>, depth: usize) -> Option<Task<'_>> {
    match content {
        Content::Array(count) => Some(Task::Values { count, depth }),
        Content::Object(count) => Some(Task::Members {
            count,
            depth,
            met: HashSet::new(),
        }),
        _ => None,
    }
}
