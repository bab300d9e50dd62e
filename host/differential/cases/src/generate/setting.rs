//! The settings of a generated case, a schema with a rule for it, and small cases of these two.

use super::names::Names;
use super::schemas;
use super::scope::Scope;
use crate::case::{Case, Expect};
use crate::random::Random;
use model::trees::{Schema, Sheet};
use model::{write_rule, write_schema};

const LABELS: [&str; 8] = ["r", "", "invariants[0]", "a.b", "é", "x,y", "l\nl", "operations.release.preconditions[12]"];

/// Kind, semantics and label of a generated case, and the names that each kind may read.
#[derive(Clone, Copy)]
pub struct Setting<'n> {
    pub kind: u64,
    pub semantics: u64,
    pub label: &'static str,
    pub names: &'n Names,
}

impl<'n> Setting<'n> {
    pub fn new(random: &mut Random, names: &'n Names) -> Self {
        let kind = random.between(1, 8) as u64;
        // The service semantics have more to check, so kernel/1 comes in a fifth of the cases only.
        let semantics = if random.chance(20) { 1 } else { random.between(2, 4) as u64 };
        Self { kind, semantics, label: random.pick(&LABELS), names }
    }

    pub fn may_read(&self, name: &str) -> bool {
        self.names.may_read(self.kind, name)
    }

    pub fn scope<'s>(&self, schema: &'s Schema, slip: usize) -> Scope<'s>
    where
        'n: 's,
    {
        Scope { kind: self.kind, names: self.names, service: self.semantics > 1, schema, binders: Vec::new(), slip }
    }

    /// A rule or template for the schema, in which something slips now and then.
    pub fn sheet(&self, random: &mut Random, schema: &Schema, slip: usize) -> Sheet {
        let scope = self.scope(schema, slip);
        let depth = random.between(1, 5);
        if random.chance(15) {
            scope.template(random)
        } else {
            scope.rule(random, depth)
        }
    }

    pub fn case(&self, schema: &Schema, sheet: &Sheet) -> Case {
        let case = Case::new(self.kind, self.semantics, self.label.as_bytes(), write_schema(schema), write_rule(sheet));
        case.under(self.names.lent.clone())
    }
}

/// A schema and a rule or template for it.
pub struct Pair<'n> {
    pub setting: Setting<'n>,
    pub schema: Schema,
    pub sheet: Sheet,
}

impl<'n> Pair<'n> {
    pub fn new(random: &mut Random, names: &'n Names, slip: usize) -> Self {
        let setting = Setting::new(random, names);
        Self::under(setting, random, slip)
    }

    pub fn under(setting: Setting<'n>, random: &mut Random, slip: usize) -> Self {
        let fields = random.between(1, 4);
        let schema = schemas::schema(random, fields);
        let sheet = setting.sheet(random, &schema, slip);
        Self { setting, schema, sheet }
    }

    pub fn case(&self) -> Case {
        self.setting.case(&self.schema, &self.sheet)
    }
}

/// Small cases rich in references where everything is right, so that they must be accepted.
pub fn right(random: &mut Random, names: &Names) -> Case {
    Pair::new(random, names, 0).case().expecting(Expect::Number(0))
}

/// Small cases in which something slips now and then.
pub fn slips(random: &mut Random, names: &Names) -> Case {
    let slip = random.between(3, 25);
    Pair::new(random, names, slip).case().expecting(Expect::Read)
}
