//! Conditions, rules, templates.

use super::error::BuildError;
use super::part::{Built, Part, length_or_dash, lent, text};
use super::value::Value;
use crate::sheets::RuleSheet;
use crate::vocabulary::{CompareOp, Nesting, Operator};

/// A condition over a record, its arguments and what binders name.
///
/// ```
/// use entity_rules::{Condition, Rule};
///
/// let threaded = Condition::for_all("bar", "$fields.bars", Condition::eq("$bar.threaded", true));
/// let rule = Rule::new(Condition::all([threaded, Condition::exists("$args.by")]));
/// assert_eq!(
///     rule.sheet()?,
///     b"R,-,-,\nC,2,2,\nC,20,3,bar\nV,5,12,$fields.bars\nC,8,0,\nV,5,13,$bar.threaded\nV,3,0,\nC,5,0,\nV,5,8,$args.by\n"
/// );
/// # Ok::<(), entity_rules::BuildError>(())
/// ```
#[derive(Clone, Debug, PartialEq, Eq)]
pub struct Condition {
    part: Built,
}

/// Writes the constructors that take two values.
macro_rules! pairs {
    ($($(#[$outer:meta])* $name:ident: $operator:ident;)+) => {
        impl Condition {
            $(
                $(#[$outer])*
                ///
                /// ```
                /// # use entity_rules::{Condition, Operator, Rule};
                #[doc = concat!("let rule = Rule::new(Condition::", stringify!($name), "(\"$fields.a\", \"b\"));")]
                #[doc = concat!("let number = Operator::", stringify!($operator), ".number();")]
                /// let sheet = format!("R,-,-,\nC,{number},0,\nV,5,9,$fields.a\nV,5,1,b\n");
                /// assert_eq!(rule.sheet()?, sheet.as_bytes());
                /// # Ok::<(), entity_rules::BuildError>(())
                /// ```
                #[must_use]
                pub fn $name(left: impl Into<Value>, right: impl Into<Value>) -> Self {
                    Self::of_values(Operator::$operator, 0, &[left.into(), right.into()])
                }
            )+
        }
    };
}

pairs! {
    /// The left instant lies before the right one.
    before: Before;
    /// The left instant lies after the right one.
    after: After;
    /// Both are equal.
    eq: Eq;
    /// They are not equal.
    ne: Ne;
    /// The left one is greater.
    gt: Gt;
    /// The left one is greater, or both are equal.
    gte: Gte;
    /// The left one is less.
    lt: Lt;
    /// The left one is less, or both are equal.
    lte: Lte;
    /// The left one is among the members of the right one.
    is_in: In;
    /// The left one contains the right one, as an element, a key or a part of its text.
    contains: Contains;
    /// The left string begins with the right one.
    starts_with: StartsWith;
    /// The left string ends with the right one.
    ends_with: EndsWith;
}

impl Condition {
    /// `true` or `false`, whatever the record.
    ///
    /// ```
    /// # use entity_rules::{Condition, Rule};
    /// assert_eq!(Rule::new(Condition::literal(true)).sheet()?, b"R,-,-,\nC,1,1,\n");
    /// # Ok::<(), entity_rules::BuildError>(())
    /// ```
    #[must_use]
    pub fn literal(truth: bool) -> Self {
        Self::of_values(Operator::Literal, usize::from(truth), &[])
    }

    /// Every one of them holds. An empty list is written, but the check finds a defect in it.
    ///
    /// ```
    /// # use entity_rules::{Condition, Rule};
    /// let both = Condition::all([Condition::literal(true), Condition::literal(false)]);
    /// assert_eq!(Rule::new(both).sheet()?, b"R,-,-,\nC,2,2,\nC,1,1,\nC,1,0,\n");
    /// # Ok::<(), entity_rules::BuildError>(())
    /// ```
    #[must_use]
    pub fn all(children: impl IntoIterator<Item = Condition>) -> Self {
        Self {
            part: list(Operator::All, children),
        }
    }

    /// At least one of them holds. An empty list is written, but the check finds a defect in it.
    ///
    /// ```
    /// # use entity_rules::{Condition, Rule};
    /// assert_eq!(Rule::new(Condition::any([])).sheet()?, b"R,-,-,\nC,3,0,\n");
    /// # Ok::<(), entity_rules::BuildError>(())
    /// ```
    #[must_use]
    pub fn any(children: impl IntoIterator<Item = Condition>) -> Self {
        Self {
            part: list(Operator::Any, children),
        }
    }

    /// It does not hold.
    ///
    /// ```
    /// # use entity_rules::{Condition, Rule};
    /// let never = Condition::not(Condition::literal(true));
    /// assert_eq!(Rule::new(never).sheet()?, b"R,-,-,\nC,4,0,\nC,1,1,\n");
    /// # Ok::<(), entity_rules::BuildError>(())
    /// ```
    #[must_use]
    #[expect(
        clippy::should_implement_trait,
        reason = "the constructors bear the operators' names"
    )]
    pub fn not(child: Condition) -> Self {
        Self {
            part: over_body("C,4,0,", &[], &[], &child),
        }
    }

    /// There is a value.
    ///
    /// ```
    /// # use entity_rules::{Condition, Rule};
    /// assert_eq!(Rule::new(Condition::exists("$args.by")).sheet()?, b"R,-,-,\nC,5,0,\nV,5,8,$args.by\n");
    /// # Ok::<(), entity_rules::BuildError>(())
    /// ```
    #[must_use]
    pub fn exists(value: impl Into<Value>) -> Self {
        Self::of_values(Operator::Exists, 0, &[value.into()])
    }

    /// Both sides compare so. Only under the service semantics.
    ///
    /// ```
    /// # use entity_rules::{CompareOp, Condition, Rule};
    /// let few = Condition::compare("$fields.n", CompareOp::Lte, 9);
    /// assert_eq!(Rule::new(few).sheet()?, b"R,-,-,\nC,18,4,\nV,5,9,$fields.n\nV,4,1,9\n");
    /// # Ok::<(), entity_rules::BuildError>(())
    /// ```
    #[must_use]
    pub fn compare(left: impl Into<Value>, op: CompareOp, right: impl Into<Value>) -> Self {
        let values = [left.into(), right.into()];
        Self::of_values(Operator::Compare, op as usize, &values)
    }

    /// The value counts as true. Only under the service semantics.
    ///
    /// ```
    /// # use entity_rules::{Condition, Rule};
    /// assert_eq!(Rule::new(Condition::truthy(1)).sheet()?, b"R,-,-,\nC,19,0,\nV,4,1,1\n");
    /// # Ok::<(), entity_rules::BuildError>(())
    /// ```
    #[must_use]
    pub fn truthy(value: impl Into<Value>) -> Self {
        Self::of_values(Operator::Truthy, 0, &[value.into()])
    }

    /// The body holds for every element, which it calls `$` and the bind. Only under the service semantics.
    ///
    /// ```
    /// # use entity_rules::{Condition, Rule};
    /// let positive = Condition::for_all("b", "$fields.bars", Condition::gt("$b", 0));
    /// assert_eq!(
    ///     Rule::new(positive).sheet()?,
    ///     b"R,-,-,\nC,20,1,b\nV,5,12,$fields.bars\nC,10,0,\nV,5,2,$b\nV,4,1,0\n"
    /// );
    /// # Ok::<(), entity_rules::BuildError>(())
    /// ```
    #[must_use]
    pub fn for_all(bind: &str, over: impl Into<Value>, body: Condition) -> Self {
        Self {
            part: quantifier(Operator::ForAll, bind, &over.into(), &body),
        }
    }

    /// The body holds for at least one element; otherwise as [`for_all`](Self::for_all).
    ///
    /// ```
    /// # use entity_rules::{Condition, Rule};
    /// let some = Condition::for_any("b", "$fields.bars", Condition::eq("$b", 0));
    /// assert!(Rule::new(some).sheet()?.starts_with(b"R,-,-,\nC,21,1,b\n"));
    /// # Ok::<(), entity_rules::BuildError>(())
    /// ```
    #[must_use]
    pub fn for_any(bind: &str, over: impl Into<Value>, body: Condition) -> Self {
        Self {
            part: quantifier(Operator::ForAny, bind, &over.into(), &body),
        }
    }

    fn of_values(operator: Operator, n: usize, values: &[Value]) -> Self {
        let head = format!("C,{},{n},", operator.number());
        Self {
            part: over_values(values).and_then(|part| part.under(&head, &[], Nesting::Conditions)),
        }
    }
}

fn over_values(values: &[Value]) -> Built {
    let mut part = Part::of_rule();
    for value in values {
        part.add_apart(lent(&value.part)?)?;
    }
    Ok(part)
}

/// Values and then one condition, under their entry.
fn over_body(head: &str, texts: &[&str], values: &[Value], body: &Condition) -> Built {
    let mut part = over_values(values)?;
    part.add(lent(&body.part)?)?;
    part.under(head, texts, Nesting::Conditions)
}

fn list(operator: Operator, children: impl IntoIterator<Item = Condition>) -> Built {
    let mut part = Part::of_rule();
    let mut count = 0_usize;
    for child in children {
        part.add(lent(&child.part)?)?;
        count = count.saturating_add(1);
    }
    let head = format!("C,{},{count},", operator.number());
    part.under(&head, &[], Nesting::Conditions)
}

fn quantifier(operator: Operator, bind: &str, over: &Value, body: &Condition) -> Built {
    let bind = text("bind", bind)?;
    let head = format!("C,{},{},", operator.number(), bind.len());
    over_body(&head, &[bind], std::slice::from_ref(over), body)
}

/// A rule: a condition, and the name and message that a refusal by it may carry.
///
/// ```
/// use entity_rules::{Condition, Rule};
///
/// let rule = Rule::new(Condition::gt("$fields.repeat", 0))
///     .name("repeat")
///     .message("the repeat is missing");
/// assert_eq!(
///     rule.sheet()?,
///     b"R,6,21,repeatthe repeat is missing\nC,10,0,\nV,5,14,$fields.repeat\nV,4,1,0\n"
/// );
/// # Ok::<(), entity_rules::BuildError>(())
/// ```
#[derive(Clone, Debug, PartialEq, Eq)]
pub struct Rule {
    name: Option<String>,
    message: Option<String>,
    condition: Condition,
}

impl Rule {
    /// A rule without name and message.
    ///
    /// ```
    /// # use entity_rules::{Condition, Rule};
    /// assert_eq!(Rule::new(Condition::literal(false)).sheet()?, b"R,-,-,\nC,1,0,\n");
    /// # Ok::<(), entity_rules::BuildError>(())
    /// ```
    #[must_use]
    pub const fn new(condition: Condition) -> Self {
        Self {
            name: None,
            message: None,
            condition,
        }
    }

    /// Gives it a name. A blank one is written, but the check finds a defect in it.
    ///
    /// ```
    /// # use entity_rules::{Condition, Rule};
    /// let rule = Rule::new(Condition::literal(false)).name("never");
    /// assert_eq!(rule.sheet()?, b"R,5,-,never\nC,1,0,\n");
    /// # Ok::<(), entity_rules::BuildError>(())
    /// ```
    #[must_use]
    pub fn name(mut self, name: impl Into<String>) -> Self {
        self.name = Some(name.into());
        self
    }

    /// Gives it a message. A blank one is written, but the check finds a defect in it.
    ///
    /// ```
    /// # use entity_rules::{Condition, Rule};
    /// let rule = Rule::new(Condition::literal(false)).message("no");
    /// assert_eq!(rule.sheet()?, b"R,-,2,no\nC,1,0,\n");
    /// # Ok::<(), entity_rules::BuildError>(())
    /// ```
    #[must_use]
    pub fn message(mut self, message: impl Into<String>) -> Self {
        self.message = Some(message.into());
        self
    }

    /// Its sheet.
    ///
    /// ```
    /// # use entity_rules::{BuildError, Condition, Rule};
    /// let rule = Rule::new(Condition::literal(true)).name("n".repeat(513));
    /// assert!(matches!(rule.sheet(), Err(BuildError::TextTooLong { what: "name", bytes: 513, .. })));
    /// ```
    ///
    /// # Errors
    ///
    /// If a part of it or the whole passes a limit of sheets.
    pub fn sheet(&self) -> Result<RuleSheet, BuildError> {
        let name = text("name", self.name.as_deref().unwrap_or_default())?;
        let message = text("message", self.message.as_deref().unwrap_or_default())?;
        let lengths = [&self.name, &self.message].map(|text| length_or_dash(text.as_deref()));
        let mut part = Part::of_rule();
        part.add_entry(&format!("R,{},", lengths.join(",")), &[name, message])?;
        part.add(lent(&self.condition.part)?)?;
        Ok(RuleSheet::new(part.sheet()))
    }
}

/// A template: a value that may contain references.
///
/// ```
/// use entity_rules::Template;
///
/// assert_eq!(Template::new("$fields.name").sheet()?, b"T\nV,5,12,$fields.name\n");
/// # Ok::<(), entity_rules::BuildError>(())
/// ```
#[derive(Clone, Debug, PartialEq, Eq)]
pub struct Template {
    value: Value,
}

impl Template {
    /// A template of that value.
    ///
    /// ```
    /// # use entity_rules::Template;
    /// assert_eq!(Template::new(true).sheet()?, b"T\nV,3,0,\n");
    /// # Ok::<(), entity_rules::BuildError>(())
    /// ```
    #[must_use]
    pub fn new(value: impl Into<Value>) -> Self {
        Self {
            value: value.into(),
        }
    }

    /// Its sheet.
    ///
    /// ```
    /// # use entity_rules::{BuildError, Template};
    /// assert!(Template::new(f64::NAN).sheet().is_err());
    /// ```
    ///
    /// # Errors
    ///
    /// If a part of it or the whole passes a limit of sheets.
    pub fn sheet(&self) -> Result<RuleSheet, BuildError> {
        let mut part = Part::of_rule();
        part.add_entry("T", &[])?;
        part.add(lent(&self.value.part)?)?;
        Ok(RuleSheet::new(part.sheet()))
    }
}
