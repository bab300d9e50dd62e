//! Definitions of every shape: names that are there and names that are not, in every kind of place.

use crate::random::Random;
use serde_json::{json, Map, Value};

pub struct Generator {
    random: Random,
    /// Names that a body may read besides.
    binds: Vec<String>,
}

const FIELDS: [&str; 9] = ["i", "n", "t", "a", "o", "m", "u", "j", "r"];
const STATES: [&str; 3] = ["s", "made", "gone"];

fn object(members: impl IntoIterator<Item = (String, Value)>) -> Value {
    Value::Object(members.into_iter().collect())
}

impl Generator {
    pub fn new(random: Random) -> Self {
        Self { random, binds: Vec::new() }
    }

    fn chance(&mut self, percent: usize) -> bool {
        self.random.chance(percent)
    }

    fn pick(&mut self, from: &[&str]) -> String {
        self.random.pick(from).to_owned()
    }

    /// Up to so many of what is made.
    fn some<T>(&mut self, most: usize, mut make: impl FnMut(&mut Self, usize) -> T) -> Vec<T> {
        let count = self.random.below(most + 1);
        (0..count).map(|index| make(self, index)).collect()
    }

    pub fn definition(&mut self) -> Value {
        let semantics = self.pick(&["", "kernel/1", "service/1", "service/1", "service/2", "service/3"]);
        let mut members: Vec<(&str, Value)> = vec![
            ("entity", json!("e")),
            ("schema", self.schema()),
            ("lifecycle", json!({"initial": "s", "states": STATES})),
            ("invariants", Value::Array(self.some(3, |this, _| this.rule()))),
            ("create", self.create()),
            ("operations", self.operations()),
            ("projections", self.projections()),
        ];
        if !semantics.is_empty() {
            members.push(("semantics", json!(semantics)));
        }
        self.random.shuffle(&mut members);
        object(members.into_iter().map(|(name, value)| (name.to_owned(), value)))
    }

    fn schema(&mut self) -> Value {
        let mut fields = Map::new();
        for name in FIELDS {
            if self.chance(80) {
                let field = self.field(name);
                fields.insert(name.to_owned(), field);
            }
        }
        match self.random.below(6) {
            0 => json!({"fields": fields, "additional_fields": true}),
            1 => json!({"additional_fields": false, "fields": fields}),
            _ => json!({"fields": fields}),
        }
    }

    fn field(&mut self, name: &str) -> Value {
        let kind = match name {
            "i" => "integer",
            "n" => "number",
            "a" => "array",
            "o" => "object",
            "m" => "map",
            "u" => "union",
            "j" => "json",
            "r" => "boolean",
            _ => "string",
        };
        let mut field = json!({"type": kind});
        if self.chance(40) {
            field["required"] = json!(self.chance(80));
        }
        let inner = json!({"type": "object", "properties": {"x": {"type": "integer"}, "t": {"type": "string"}, "a": {"type": "array", "items": {"type": "string"}}}});
        match kind {
            "array" => field["items"] = if self.chance(70) { inner } else { json!({"type": "string"}) },
            "map" => {
                field["key"] = json!("string");
                field["items"] = inner;
            }
            "object" => {
                field["properties"] = inner["properties"].clone();
                field["additional_properties"] = json!(self.chance(20));
            }
            "union" => {
                if self.chance(80) {
                    field["tag"] = json!(self.pick(&["tag", "value", "sort"]));
                }
                field["variants"] = json!({"v": {"type": "string"}});
            }
            _ if self.chance(20) => field["default"] = Value::Null,
            _ => {}
        }
        field
    }

    fn create(&mut self) -> Value {
        let mut create = json!({});
        if self.chance(60) {
            create["emit"] = if self.chance(10) { Value::Null } else { self.event() };
        }
        if self.chance(60) {
            create["arguments"] = self.schema();
        }
        if self.chance(60) {
            create["outcomes"] = Value::Array(self.some(3, |this, _| this.outcome()));
        }
        create
    }

    fn operations(&mut self) -> Value {
        let mut names = vec!["o", "a.b", "O", "x/y~", "é", ""];
        self.random.shuffle(&mut names);
        let count = self.random.below(4);
        object(names.into_iter().take(count).map(|name| (name.to_owned(), self.operation())).collect::<Vec<_>>())
    }

    fn operation(&mut self) -> Value {
        let mut operation = json!({});
        if self.chance(60) {
            operation["arguments"] = self.schema();
        }
        if self.chance(60) {
            operation["preconditions"] = Value::Array(self.some(3, |this, _| this.rule()));
        }
        if self.chance(70) {
            operation["set"] = self.set();
        }
        if self.chance(60) {
            let name = self.pick(&["emits", "emit"]);
            operation[name.as_str()] = Value::Array(self.some(3, |this, _| this.event()));
        }
        if self.chance(60) {
            operation["outcomes"] = Value::Array(self.some(3, |this, _| this.outcome()));
        }
        if self.chance(40) {
            operation["transitions"] = json!([{"from": self.pick(&STATES), "to": self.pick(&STATES)}]);
        }
        operation
    }

    fn outcome(&mut self) -> Value {
        let mut outcome = json!({"name": self.pick(&["n", "n", "done", "", "a.b"])});
        if self.chance(60) {
            outcome["when"] = if self.chance(10) { Value::Null } else { self.condition(0) };
        }
        if self.chance(50) {
            outcome["set"] = self.set();
        }
        if self.chance(40) {
            outcome["emits"] = Value::Array(self.some(2, |this, _| this.event()));
        }
        if self.chance(40) {
            let names = self.some(3, |this, _| this.pick(&FIELDS));
            outcome["responds"] = object(names.into_iter().map(|name| (name, self.value(0))).collect::<Vec<_>>());
        }
        if self.chance(20) {
            outcome["wrong_state"] = json!(true);
        }
        if self.chance(20) {
            outcome["refuses"] = json!({"error": "E", "message": null});
        }
        if self.chance(40) {
            outcome["effect"] = match self.random.below(4) {
                0 => json!("none"),
                1 => json!("creates"),
                2 => json!("updates"),
                _ => json!({"moves": {"to": self.pick(&STATES), "from": [self.pick(&STATES)]}}),
            };
        }
        outcome
    }

    fn projections(&mut self) -> Value {
        let mut names = vec!["p", "by.x", "P"];
        self.random.shuffle(&mut names);
        let count = self.random.below(4);
        let projection = |name: &str| {
            let key = match self.random.below(8) {
                0 => self.pick(&["", "k", "$$x", "$$", "$$fields.t"]),
                1 => self.pick(&["$fields.t.count", "$fields.t.count.x", "$fields.o.t.count", "$fields.a.0.t.count", "$fields.a.count"]),
                _ => self.reference(),
            };
            let mut projection = json!({"key": key});
            if self.chance(30) {
                projection["in_state"] = if self.chance(20) { Value::Null } else { json!(self.pick(&["s", "z"])) };
            }
            (name.to_owned(), projection)
        };
        object(names.into_iter().take(count).map(projection).collect::<Vec<_>>())
    }

    fn event(&mut self) -> Value {
        let mut event = json!({"type": self.pick(&["Made", "Made", "Made", "M", "", " \u{2003}"])});
        if self.chance(80) {
            event["payload"] = self.value(0);
        }
        event
    }

    fn set(&mut self) -> Value {
        let names = self.some(4, |this, _| this.pick(&["i", "n", "t", "o", "j", "new", "a.b"]));
        let value = |name: String| {
            let value = match self.random.below(8) {
                0 | 1 => json!({"increment": self.reference()}),
                2 => json!({"increment": self.value(2)}),
                3 => match self.random.below(5) {
                    0 => json!({"cleared": true}),
                    1 => json!({"cleared": "$x"}),
                    2 => json!({"increment": "$x", "cleared": true}),
                    3 => json!({"increment": "$x", "more": "$x"}),
                    _ => json!({}),
                },
                _ => self.value(0),
            };
            (name, value)
        };
        object(names.into_iter().map(value).collect::<Vec<_>>())
    }

    /// A reference that can be read, mostly.
    fn reference(&mut self) -> String {
        let root = match self.random.below(10) {
            0..=3 => "$fields",
            4..=6 => "$args",
            7 => "$old_fields",
            8 if !self.binds.is_empty() => {
                let bind = self.random.pick(&self.binds.clone());
                return match self.random.below(4) {
                    0 => format!("${bind}"),
                    1 => format!("${bind}.x"),
                    2 => format!("${bind}.t.count"),
                    _ => format!("${bind}.none"),
                };
            }
            _ => {
                return self.pick(&[
                    "$id",
                    "$entity",
                    "$version",
                    "$state",
                    "$to_state",
                    "$from_state",
                    "$fields",
                    "$args",
                    "$x",
                    "$",
                    "$id.x",
                ])
            }
        };
        let first = self.pick(&["i", "n", "t", "a", "o", "m", "u", "j", "r", "none"]);
        let rest = match self.random.below(5) {
            0 | 1 => String::new(),
            2 => self.pick(&[".count", ".x", ".0", ".tag", ".value", ".none", "."]),
            3 => self.pick(&[".0.x", ".0.t", ".count.x", ".x.y", ".tag.x", ".value.q", ".00", ".t.count"]),
            _ => self.pick(&["", ".a.0", ".a.count", ".sort", ".content"]),
        };
        format!("{root}.{first}{rest}")
    }

    fn number(&mut self) -> Value {
        let text = self.pick(&["0", "1", "12", "-3", "1.5", "1e400", "-1e999", "1e300"]);
        serde_json::from_str(&text).unwrap_or(Value::Null)
    }

    fn value(&mut self, depth: usize) -> Value {
        match self.random.below(if depth > 2 { 8 } else { 10 }) {
            0..=3 => json!(self.reference()),
            4 => json!(self.pick(&["", "plain", "$$escaped", "2024-02-29", "né"])),
            5 => self.number(),
            6 => json!(self.chance(50)),
            7 => Value::Null,
            8 => Value::Array(self.some(3, |this, _| this.value(depth + 1))),
            _ => {
                let mut names = vec!["k", "b", "a", "$x", "é"];
                self.random.shuffle(&mut names);
                let count = self.random.below(3);
                object(names.into_iter().take(count).map(|name| (name.to_owned(), self.value(depth + 1))).collect::<Vec<_>>())
            }
        }
    }

    fn rule(&mut self) -> Value {
        let mut rule = json!({"assert": self.condition(0)});
        if self.chance(40) {
            rule["name"] = match self.random.below(6) {
                0 => Value::Null,
                1 => json!(self.pick(&["", " "])),
                _ => json!("a rule"),
            };
        }
        if self.chance(40) {
            rule["message"] = match self.random.below(6) {
                0 => Value::Null,
                1 => json!(self.pick(&["", "\t"])),
                _ => json!("a message"),
            };
        }
        rule
    }

    fn condition(&mut self, depth: usize) -> Value {
        if depth == 0 && self.chance(2) {
            let levels = self.random.between(30, 34);
            return (0..levels).fold(json!(true), |inner, _| json!({"not": inner}));
        }
        match self.random.below(if depth > 2 { 11 } else { 15 }) {
            0 => json!(self.chance(50)),
            1 => json!({"exists": self.value(1)}),
            2 => json!({"truthy": self.value(1)}),
            3 => json!({"compare": {"left": self.value(1), "op": self.pick(&["eq", "lt", "gte"]), "right": self.value(1)}}),
            4 => {
                let operator = self.pick(&["before", "after"]);
                let right = if self.chance(40) { self.value(2) } else { json!("2024-01-31") };
                object([(operator, json!([self.value(2), right]))])
            }
            5 => {
                let operator = self.pick(&["starts_with", "ends_with"]);
                let right = if self.chance(60) { json!("NG-") } else { self.value(2) };
                object([(operator, json!([self.value(2), right]))])
            }
            6..=10 => {
                let operator = self.pick(&["eq", "ne", "gt", "gte", "lt", "lte", "in", "contains"]);
                object([(operator, json!([self.value(1), self.value(1)]))])
            }
            11 => json!({"not": self.condition(depth + 1)}),
            12 => {
                let operator = self.pick(&["all", "any"]);
                object([(operator, Value::Array(self.some(3, |this, _| this.condition(depth + 1))))])
            }
            _ => self.quantifier(depth),
        }
    }

    fn quantifier(&mut self, depth: usize) -> Value {
        let operator = self.pick(&["for_all", "for_any"]);
        let over = match self.random.below(4) {
            0 => self.value(1),
            1 => json!(self.pick(&[
                "$fields.m",
                "$args.a",
                "$args.m",
                "$fields.o.a",
                "$fields.o.none",
                "$fields.i.x",
                "$b.a",
                "$b.none",
                "$b.x.y"
            ])),
            _ => json!("$fields.a"),
        };
        let bind = self.pick(&["b", "b", "b", "c", "", "x.y", "fields"]);
        self.binds.push(bind.clone());
        let body = self.condition(depth + 1);
        self.binds.pop();
        object([(operator, json!({"in": over, "as": bind, "that": body}))])
    }

    /// Changes the shape of a definition in one place.
    pub fn slip(&mut self, value: &mut Value) {
        match value {
            Value::Object(members) if !members.is_empty() && self.chance(75) => {
                let names: Vec<String> = members.keys().cloned().collect();
                let name = self.random.pick(&names);
                if let Some(member) = members.get_mut(&name) {
                    self.slip(member);
                }
            }
            Value::Array(elements) if !elements.is_empty() && self.chance(75) => {
                let index = self.random.below(elements.len());
                self.slip(&mut elements[index]);
            }
            Value::Object(members) if self.chance(70) => self.slip_members(members),
            value => *value = self.other(),
        }
    }

    fn slip_members(&mut self, members: &mut Map<String, Value>) {
        let names: Vec<String> = members.keys().cloned().collect();
        let other = self.pick(&[
            "emit",
            "emits",
            "when",
            "key",
            "type",
            "assert",
            "tag",
            "invariant",
            "payload",
            "default",
            "items",
            "min",
            "min_length",
            "version",
            "identity",
            "when ",
        ]);
        match self.random.below(3) {
            0 if !names.is_empty() => {
                let name = self.random.pick(&names);
                members.remove(&name);
            }
            1 if !names.is_empty() => {
                let name = self.random.pick(&names);
                if let Some(value) = members.remove(&name) {
                    members.insert(other, value);
                }
            }
            _ => {
                let value = self.other();
                members.insert(other, value);
            }
        }
    }

    fn other(&mut self) -> Value {
        let number = |text: &str| serde_json::from_str(text).unwrap_or(Value::Null);
        match self.random.below(11) {
            0 | 1 => Value::Null,
            2 => json!(true),
            3 => json!("s"),
            4 => json!([]),
            5 => json!({}),
            6 => json!(["s"]),
            7 => number(&self.pick(&[
                "0",
                "1",
                "-1",
                "1.5",
                "1.0",
                "1e2",
                "4294967295",
                "4294967296",
                "18446744073709551615",
                "18446744073709551616",
            ])),
            8 => json!({"type": "string"}),
            9 => json!({"moves": {"to": "s", "from": "s"}}),
            _ => json!({"none": null}),
        }
    }
}
