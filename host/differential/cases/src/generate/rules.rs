//! Random conditions, rules and templates in a scope.

use crate::generate::build::{all, compare, condition, exists, literal, not, pair, quantifier, text, value};
use crate::generate::scope::Scope;
use crate::random::Random;
use model::trees::{Condition, Data, Operator, Rule, Sheet, Value};

pub const BINDS: [&str; 14] = ["b", "b", "c", "x", "fields", "args", "id", "state", "é", " b ", "$b", "count", "old_fields", "日本"];
pub const BAD_BINDS: [&str; 7] = ["", " ", "a.b", ".", "\u{3000}", "b.", "\u{85}\t"];
pub const BLANKS: [&str; 6] =
    ["", " ", "\t\n\u{b}\u{c}\r", "\u{85}", "\u{a0}\u{1680}\u{2000}\u{200a}", "\u{2028}\u{2029}\u{202f}\u{205f}\u{3000}"];

/// Texts that look blank and are not.
const NOT_BLANK: [&str; 7] = ["n", " n ", "\u{200b}", "\u{feff}", "\u{1c}", "\u{180e}", "\u{2060}"];

/// An operand that slips past the form which its operator asks for.
const NO_STRINGS: [Data; 3] = [Data::Null, Data::Bool(true), Data::Array(Vec::new())];

impl<'s> Scope<'s> {
    /// A condition that nests at most `depth` deep.
    pub fn condition(&self, random: &mut Random, depth: usize) -> Condition {
        if depth > 1 && random.chance(45) {
            return self.branch(random, depth);
        }
        match random.below(14) {
            0 => literal(random.chance(50)),
            1 | 2 => exists(self.value(random, 3)),
            3 | 4 => pair(random.between(6, 7) as u8, self.instant(random), self.instant(random)),
            5 | 6 => pair(random.between(16, 17) as u8, self.affix(random), self.affix(random)),
            7 | 8 if self.service || random.chance(self.slip) => self.service_leaf(random),
            _ => pair(random.between(8, 15) as u8, self.value(random, 3), self.value(random, 3)),
        }
    }

    /// A condition with conditions under it.
    fn branch(&self, random: &mut Random, depth: usize) -> Condition {
        match random.below(10) {
            0..=1 => not(self.condition(random, depth - 1)),
            2..=4 => {
                let children = self.children(random, depth - 1);
                condition(Operator::Any(children))
            }
            5..=9 if self.service || random.chance(self.slip) => self.quantifier(random, depth),
            _ => all(self.children(random, depth - 1)),
        }
    }

    fn children(&self, random: &mut Random, depth: usize) -> Vec<Condition> {
        let none = random.chance(self.slip / 3);
        let count = if none { 0 } else { random.between(1, 3) };
        (0..count).map(|_| self.condition(random, depth)).collect()
    }

    fn service_leaf(&self, random: &mut Random) -> Condition {
        if random.chance(40) {
            return condition(Operator::Truthy(self.value(random, 3)));
        }
        compare(random.between(1, 6) as u8, self.side(random), self.side(random))
    }

    fn side(&self, random: &mut Random) -> Value {
        if random.chance(self.slip) {
            self.value(random, 2)
        } else {
            self.scalar(random)
        }
    }

    fn affix(&self, random: &mut Random) -> Value {
        if random.chance(self.slip) {
            value(random.pick(&NO_STRINGS))
        } else {
            self.text(random)
        }
    }

    /// A quantifier, or another condition where there is no collection to walk.
    pub fn quantifier(&self, random: &mut Random, depth: usize) -> Condition {
        let operator = random.between(20, 21) as u8;
        let bind = if random.chance(self.slip / 3) { random.pick(&BAD_BINDS) } else { random.pick(&BINDS) };
        if random.chance(self.slip) {
            let over = self.no_collection(random);
            return quantifier(operator, bind, over, self.bound(bind, None).condition(random, depth - 1));
        }
        match self.over(random) {
            Some((over, element)) => quantifier(operator, bind, text(&over), self.bound(bind, element).condition(random, depth - 1)),
            None => all(vec![self.condition(random, depth - 1)]),
        }
    }

    /// An `in` that is mostly no collection.
    fn no_collection(&self, random: &mut Random) -> Value {
        let first = random.pick(&["x", "b", "$", "é", "$$", ""]);
        let path = random.pick(&["", ".", ".0", ".a", ".q", ".count", ".value", ".a.b"]);
        match (random.below(6), self.binders.last()) {
            (0..=2, Some(binder)) => text(&format!("{first}{}{path}", binder.name)),
            (0..=3, _) => text(&self.reference(random)),
            (4, _) => text(&format!("{first}fields{path}")),
            _ => self.value(random, 2),
        }
    }

    pub fn rule(&self, random: &mut Random, depth: usize) -> Sheet {
        let condition = self.condition(random, depth);
        Sheet::Rule(Rule { name: self.heading(random), message: self.heading(random), condition })
    }

    /// A name or message, often absent.
    fn heading(&self, random: &mut Random) -> Option<String> {
        if random.chance(self.slip / 4) {
            return Some((random.pick(&BLANKS)).to_owned());
        }
        random.chance(30).then(|| (random.pick(&NOT_BLANK)).to_owned())
    }

    pub fn template(&self, random: &mut Random) -> Sheet {
        Sheet::Template(self.value(random, 5))
    }
}
