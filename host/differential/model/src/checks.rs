//! The check list (docs/FORMAT.md, "The check list"): which checks a rule or template undergoes, and in which order. No schema is
//! available here.

use super::instant;
use super::number::is_finite;
use super::settings::Setting;
use super::sheets::operator_number;
use super::text::is_blank;
use super::trees::{Condition, Data, Operator, Rule, Sheet, Value};
use std::rc::Rc;

const MAX_CONDITION_DEPTH: usize = 32;

/// One check: the number and place it fails with, the quantifiers whose bodies hold it, and what it asks.
pub struct Check<'t> {
    pub number: u32,
    pub place: u32,
    pub binders: Binders<'t>,
    pub question: Question<'t>,
}

/// The innermost enclosing quantifier, if any, and through it the others.
pub type Binders<'t> = Option<Rc<Binder<'t>>>;

pub struct Binder<'t> {
    pub name: &'t str,
    pub over: &'t Value,
    pub outer: Binders<'t>,
}

pub enum Question<'t> {
    /// Answered by rule and settings alone: passed, or the detail.
    Settled(Result<(), u32>),
    /// Can this text be read?
    Reference(&'t str),
    /// Is this value a collection?
    Collection(&'t Value),
}

/// All checks of a rule or template, in order.
pub fn checks<'t>(sheet: &'t Sheet, setting: &Setting) -> Vec<Check<'t>> {
    let mut list = List {
        service: setting.service,
        checks: Vec::new(),
    };
    match sheet {
        Sheet::Template(value) => list.references(value, &None),
        Sheet::Rule(rule) => list.rule(rule),
    }
    list.checks
}

/// How deep conditions nest; an empty `all` or `any` has depth 1.
pub fn depth(condition: &Condition) -> usize {
    1 + match &condition.operator {
        Operator::All(children) | Operator::Any(children) => {
            children.iter().map(depth).max().unwrap_or(0)
        }
        Operator::Not(child) => depth(child),
        Operator::Quantifier { body, .. } => depth(body),
        _ => 0,
    }
}

/// Every value inside a value, itself first, in the sheet's order.
fn each_value<'t>(value: &'t Value, visit: &mut impl FnMut(&'t Value)) {
    visit(value);
    match &value.data {
        Data::Array(values) => values.iter().for_each(|value| each_value(value, visit)),
        Data::Object(members) => members
            .iter()
            .for_each(|(_, value)| each_value(value, visit)),
        _ => {}
    }
}

struct List<'t> {
    service: bool,
    checks: Vec<Check<'t>>,
}

impl<'t> List<'t> {
    fn push(&mut self, number: u32, place: u32, binders: &Binders<'t>, question: Question<'t>) {
        self.checks.push(Check {
            number,
            place,
            binders: binders.clone(),
            question,
        });
    }

    /// A check that the rule itself answers.
    fn settled(
        &mut self,
        number: u32,
        place: u32,
        binders: &Binders<'t>,
        passes: bool,
        detail: u32,
    ) {
        let answer = if passes { Ok(()) } else { Err(detail) };
        self.push(number, place, binders, Question::Settled(answer));
    }

    fn rule(&mut self, rule: &'t Rule) {
        let is_present_but_blank =
            |text: &Option<String>| text.as_ref().is_some_and(|text| is_blank(text));
        self.settled(11, 1, &None, !is_present_but_blank(&rule.name), 0);
        self.settled(12, 1, &None, !is_present_but_blank(&rule.message), 0);
        self.settled(
            13,
            2,
            &None,
            depth(&rule.condition) <= MAX_CONDITION_DEPTH,
            0,
        );
        if self.service {
            self.literals(&rule.condition);
        }
        self.condition(&rule.condition, &None);
    }

    /// The literal pass: numbers in the operands of 8 to 15, 18 and 19.
    fn literals(&mut self, condition: &'t Condition) {
        match &condition.operator {
            Operator::All(children) | Operator::Any(children) => {
                children.iter().for_each(|child| self.literals(child))
            }
            Operator::Not(child) => self.literals(child),
            Operator::Quantifier { body, .. } => self.literals(body),
            Operator::Pair(8..=15, values) | Operator::Compare(_, values) => {
                values.iter().for_each(|value| self.numbers(value))
            }
            Operator::Truthy(value) => self.numbers(value),
            Operator::Literal(_) | Operator::Exists(_) | Operator::Pair(..) => {}
        }
    }

    /// One check for each number, outside every quantifier's body: the pass comes before the bodies are looked at.
    fn numbers(&mut self, value: &'t Value) {
        each_value(value, &mut |value| {
            if let Data::Number(text) = &value.data {
                self.settled(14, value.entry, &None, is_finite(text), 0);
            }
        });
    }

    /// One check for each text that begins with `$` but not with `$$`.
    fn references(&mut self, value: &'t Value, binders: &Binders<'t>) {
        each_value(value, &mut |value| match &value.data {
            Data::String(text) if text.starts_with('$') && !text.starts_with("$$") => {
                self.push(18, value.entry, binders, Question::Reference(text));
            }
            _ => {}
        });
    }

    fn condition(&mut self, condition: &'t Condition, binders: &Binders<'t>) {
        let operator = &condition.operator;
        self.settled(
            15,
            condition.entry,
            binders,
            self.service || operator_number(operator) < 18,
            0,
        );
        match operator {
            Operator::Literal(_) => {}
            Operator::All(children) | Operator::Any(children) => {
                self.settled(16, condition.entry, binders, !children.is_empty(), 0);
                children
                    .iter()
                    .for_each(|child| self.condition(child, binders));
            }
            Operator::Not(child) => self.condition(child, binders),
            Operator::Exists(value) | Operator::Truthy(value) => self.references(value, binders),
            Operator::Pair(number, values) => values
                .iter()
                .for_each(|value| self.operand(*number, value, binders)),
            Operator::Compare(_, sides) => self.compare(sides, binders),
            Operator::Quantifier {
                bind, over, body, ..
            } => self.quantifier(condition.entry, bind, over, body, binders),
        }
    }

    /// An operand of the operators 6 to 17: its references, then its form where the operator asks for one.
    fn operand(&mut self, operator: u8, value: &'t Value, binders: &Binders<'t>) {
        self.references(value, binders);
        match operator {
            6 | 7 => {
                let answer = instant_form(value);
                self.push(20, value.entry, binders, Question::Settled(answer));
            }
            16 | 17 => self.settled(
                19,
                value.entry,
                binders,
                matches!(value.data, Data::String(_)),
                0,
            ),
            _ => {}
        }
    }

    fn compare(&mut self, sides: &'t [Value; 2], binders: &Binders<'t>) {
        for (side, detail) in sides.iter().zip([1, 2]) {
            let addressable = !matches!(side.data, Data::Array(_) | Data::Object(_));
            self.settled(17, side.entry, binders, addressable, detail);
            self.references(side, binders);
        }
    }

    fn quantifier(
        &mut self,
        entry: u32,
        bind: &'t str,
        over: &'t Value,
        body: &'t Condition,
        binders: &Binders<'t>,
    ) {
        self.settled(
            21,
            entry,
            binders,
            !is_blank(bind) && !bind.contains('.'),
            0,
        );
        self.references(over, binders);
        self.push(22, entry, binders, Question::Collection(over));
        let inner = Binder {
            name: bind,
            over,
            outer: binders.clone(),
        };
        self.condition(body, &Some(Rc::new(inner)));
    }
}

/// Whether an operand of `before` or `after` is a reference or an instant; else the detail of 20.
fn instant_form(value: &Value) -> Result<(), u32> {
    match &value.data {
        Data::String(text) if text.starts_with("$$") => Err(1),
        Data::String(text) if text.starts_with('$') => Ok(()),
        Data::String(text) if instant::parse(text).is_some() => Ok(()),
        _ => Err(2),
    }
}
