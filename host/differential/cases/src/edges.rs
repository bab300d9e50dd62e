//! Cases that are easy to get wrong, each with the number and detail that docs/FORMAT.md gives it.

use crate::bound::bound;
use crate::case::{Case, Expect};
use crate::generate::build::{
    all, array, compare, condition, element, exists, field, holder, literal, not, number, object, pair, quantifier, rule, schema, text,
    value, ARRAY, INTEGER, JSON, MAP, OBJECT, STRING, UNION,
};
use crate::generate::limits::{schema_bytes, SHAPES};
use crate::generate::names::STOCK;
use crate::generate::setting::Setting;
use crate::limits::{MAX_RULE_ENTRIES, MAX_SCHEMA_ENTRIES, MAX_SHEET_BYTES};
use model::trees::{Condition, Data, Field, Holder, Operator, Rule, Schema, Sheet, Value};
use model::{write_rule, write_schema};

const ACCEPTED: (u32, u32) = (0, 0);

/// A rule under a kind and semantics, and the number and detail that answer it.
struct Edge {
    kind: u64,
    semantics: u64,
    sheet: Sheet,
    answer: (u32, u32),
}

pub fn edges() -> Vec<Case> {
    let of_format = [depths(), binders(), instants(), paths(), unions(), roots(), literals(), families(), blanks(), members()];
    let schema = edge_schema();
    let cases = of_format.into_iter().flatten().map(|edge| {
        let (answer, detail) = edge.answer;
        Case::new(edge.kind, edge.semantics, b"r", write_schema(&schema), write_rule(&edge.sheet)).expecting(Expect::Detail(answer, detail))
    });
    let setting = Setting { kind: 2, semantics: 2, label: "r", names: &STOCK };
    let full = [MAX_SHEET_BYTES, MAX_SHEET_BYTES + 1].map(|bytes| schema_bytes(&setting, bytes));
    let sheets =
        [names(), long_names(), numerals(), without_arguments(), vec![example()], schema_entries(), vec![most_entries()], full.to_vec()];
    cases.chain(sheets.into_iter().flatten()).collect()
}

/// Siblings whose names rise, fall or are the same, in the record, in the arguments and below a field.
fn names() -> Vec<Case> {
    let mut cases = Vec::new();
    for (first, second, rises) in
        [("a", "b", true), ("", "a", true), ("a", "aa", true), ("a", "a", false), ("", "", false), ("b", "a", false)]
    {
        let two = || vec![field(first, STRING), field(second, STRING)];
        let open = || Holder { open: true, fields: Vec::new() };
        let below = Field { properties: two(), ..field("o", OBJECT) };
        for schema in [
            schema(Holder { open: true, fields: two() }, None),
            schema(open(), Some(Holder { open: false, fields: two() })),
            schema(Holder { open: false, fields: vec![below] }, None),
        ] {
            let expect = Expect::Number(if rises { 0 } else { 4 });
            cases.push(Case::new(2, 2, b"r", write_schema(&schema), write_rule(&Sheet::Template(text("$id")))).expecting(expect));
        }
    }
    cases
}

/// Names of eight bytes and more that differ early, late or in their length alone: each is read, and so is one that no field bears.
fn long_names() -> Vec<Case> {
    let names =
        ["aaaaaaaaaaaaaaaa", "aaaaaaaaaaaaaaab", "aaaaaaaaaaaaaaabc", "abaaaaaaaaaaaaaa", "abaaaaab", "abaaaaac", "baaaaaaaaaaaaaaa"];
    let fields = || names.map(|name| field(name, STRING)).to_vec();
    let missing = ["aaaaaaaaaaaaaaa", "aaaaaaaaaaaaaaac", "acaaaaaaaaaaaaaa", "abaaaaabb", "bbaaaaaaaaaaaaaa", "aaaaaaab"];
    let case = |name: &str, answer: (u32, u32)| {
        let sheet = write_schema(&schema(holder(false, fields()), None));
        let rule = write_rule(&rule(exists(text(&format!("$fields.{name}")))));
        Case::new(2, 2, b"r", sheet, rule).expecting(Expect::Detail(answer.0, answer.1))
    };
    let there = names.map(|name| case(name, ACCEPTED));
    there.into_iter().chain(missing.map(|name| case(name, (18, 2)))).collect()
}

/// Whether a digit of a numeral is at a place: between it and a comma are digits alone.
fn in_numeral(sheet: &[u8], at: usize) -> bool {
    let before = sheet[..at].iter().rev().find(|byte| !byte.is_ascii_digit());
    sheet[at].is_ascii_digit() && before == Some(&b',')
}

/// Both sheets with a byte beside the digits, `/` or `:`, in place of each digit of a numeral.
fn numerals() -> Vec<Case> {
    let schema = b"H,0,1,0,1\nF,7,0,0,1,1,-,o\nF,1,0,0,0,10,-,abcdefghij\nF,11,1,0,0,1,1,ut\n";
    let rule = b"R,1,2,nno\nC,2,1,\nC,20,1,b\nV,5,9,$fields.o\nC,14,0,\nV,7,1,\nK,1,k\nV,4,2,-1\nV,6,0,\n";
    let mut cases = Vec::new();
    for (number, sheet) in [(4, schema.as_slice()), (5, rule.as_slice())] {
        for at in (0..sheet.len()).filter(|&at| in_numeral(sheet, at)) {
            for beside in [b'/', b':'] {
                let mut damaged = sheet.to_vec();
                damaged[at] = beside;
                let (schema, rule) = if number == 4 { (damaged, rule.to_vec()) } else { (schema.to_vec(), damaged) };
                cases.push(Case::new(2, 2, b"r", schema, rule).expecting(Expect::Number(number)));
            }
        }
    }
    cases
}

/// Schemas of one entry less than there may be, as many, and one more. The rule reads the field after all others.
fn schema_entries() -> Vec<Case> {
    let sizes = MAX_SCHEMA_ENTRIES - 1..=MAX_SCHEMA_ENTRIES + 1;
    let made = sizes.flat_map(|entries| SHAPES.map(|shape| (entries, shape(entries))));
    let case = |(entries, schema): (usize, Schema)| {
        let sheet = rule(exists(text(&last_field(&schema))));
        let (answer, detail) = if entries > MAX_SCHEMA_ENTRIES { (4, 0) } else { ACCEPTED };
        Case::new(2, 2, b"r", write_schema(&schema), write_rule(&sheet)).expecting(Expect::Detail(answer, detail))
    };
    made.map(case).collect()
}

/// Both sheets with as many entries as they may have. The last entry of the one names the last of the other.
fn most_entries() -> Case {
    let schema = SHAPES[0](MAX_SCHEMA_ENTRIES);
    // The head, `all`, `exists` and its string come with the literals.
    let literals = (4..MAX_RULE_ENTRIES).map(|_| literal(true));
    let sheet = rule(all(literals.chain([exists(text(&last_field(&schema)))]).collect()));
    Case::new(2, 2, b"r", write_schema(&schema), write_rule(&sheet)).expecting(Expect::Detail(0, 0))
}

/// A reference to the last field of the arguments, or of the record where there are none: its last property, or the element.
fn last_field(schema: &Schema) -> String {
    let (root, holder) = schema.arguments.as_ref().map_or(("fields", &schema.record), |arguments| ("args", arguments));
    let mut path = format!("${root}");
    let mut next = holder.fields.last();
    while let Some(field) = next {
        path += if field.name.is_empty() { ".0" } else { "." };
        path += &field.name;
        next = field.properties.last().or(field.items.as_deref());
    }
    path
}

/// The example of docs/FORMAT.md.
fn example() -> Case {
    let bars = Field { items: element(field("", INTEGER)), ..field("bars", ARRAY) };
    let body = pair(12, text("$b.count"), number("9"));
    let sheet = rule(quantifier(20, "b", text("$fields.bars"), body));
    Case::new(2, 2, b"r", write_schema(&schema(holder(false, vec![bars]), None)), write_rule(&sheet)).expecting(Expect::Detail(18, 9))
}

/// Record and arguments: an array `a` of objects, `n` without an element, a map `m`, an object `o`, a json `j`, a string `s`, unions `u` and `v`.
fn edge_schema() -> Schema {
    let inner = Field { properties: vec![field("", ARRAY), field("c", INTEGER)], ..field("", OBJECT) };
    let counted = Field { properties: vec![field("count", STRING), field("k", INTEGER)], ..field("o", OBJECT) };
    let fields = vec![
        Field { items: element(inner), ..field("a", ARRAY) },
        field("n", ARRAY),
        Field { items: element(field("", STRING)), ..field("m", MAP) },
        counted,
        field("j", JSON),
        field("s", STRING),
        Field { tag: Some("value".to_owned()), ..field("u", UNION) },
        Field { tag: Some("count".to_owned()), ..field("v", UNION) },
        field("i", INTEGER),
    ];
    schema(holder(false, fields.clone()), Some(holder(true, fields)))
}

/// A rule under kind 2 and service/1.
fn usual(condition: Condition, answer: (u32, u32)) -> Edge {
    Edge { kind: 2, semantics: 2, sheet: rule(condition), answer }
}

/// `$`-texts in `exists` under kind 2 and service/1.
fn read(reference: &str, answer: (u32, u32)) -> Edge {
    usual(exists(text(reference)), answer)
}

/// The body under a binder `b` of the array `a`.
fn bound_b(body: Condition) -> Condition {
    quantifier(20, "b", text("$fields.a"), body)
}

fn over(over: &str, answer: (u32, u32)) -> Edge {
    usual(quantifier(21, "q", text(over), literal(true)), answer)
}

fn over_in_b(over: &str, answer: (u32, u32)) -> Edge {
    usual(bound_b(quantifier(21, "q", text(over), literal(true))), answer)
}

fn nested(depth: usize, core: Condition) -> Condition {
    (1..depth).fold(core, |inner, _| not(inner))
}

fn depths() -> Vec<Edge> {
    vec![
        usual(nested(32, literal(true)), ACCEPTED),
        usual(nested(33, literal(true)), (13, 0)),
        usual(all(Vec::new()), (16, 0)),
        usual(nested(32, all(Vec::new())), (16, 0)),
        usual(nested(33, all(Vec::new())), (13, 0)),
        usual(condition(Operator::Any(Vec::new())), (16, 0)),
    ]
}

fn binders() -> Vec<Edge> {
    let hides_root = quantifier(20, "fields", text("$args.a"), exists(array(vec![text("$fields"), text("$fields.c")])));
    let own_dollar = quantifier(20, "$b", text("$fields.a"), quantifier(20, "q", text("$$b"), literal(true)));
    let unknown = bound_b(quantifier(20, "q", text("$b"), exists(array(vec![text("$q."), text("$q.x..y")]))));
    let hidden = bound_b(quantifier(20, "b", text("$fields.m"), exists(text("$b.count"))));
    vec![
        Edge { kind: 6, ..usual(hides_root, ACCEPTED) },
        usual(own_dollar, ACCEPTED),
        usual(unknown, ACCEPTED),
        usual(hidden, ACCEPTED),
        over_in_b("xb", ACCEPTED),
        over_in_b("bb", ACCEPTED),
        over_in_b("éb", (22, 5)),
        over_in_b("xb.", ACCEPTED),
        over_in_b("$b.", (18, 1)),
        over_in_b("xb.q", (22, 2)),
        over_in_b("xb.c.q", (22, 3)),
        over_in_b("$b.c", (22, 4)),
        over_in_b("$b.q", (18, 3)),
        usual(quantifier(20, " b ", text("$fields.a"), exists(text("$ b .c"))), ACCEPTED),
        usual(quantifier(20, "\u{3000}", text("$fields.a"), literal(true)), (21, 0)),
        usual(quantifier(20, "b.c", text("$fields.a"), literal(true)), (21, 0)),
    ]
}

fn instants() -> Vec<Edge> {
    let before = |operand: &str, answer| usual(pair(6, text(operand), text("2024-01-01")), answer);
    let good = ["2024-02-29", "0000-02-29", " 2024-01-01 ", "2024-01-01T23:59:60.123456789z", "2024-01-01 00:00:00"];
    let bad = ["2023-02-29", "2024-01-01Z", "2024-01-01T00:00:00+00:00", "2024-01-01T00:00:00.1234567890", " $id", "\u{feff}2024-01-01"];
    let good = good.into_iter().map(|operand| before(operand, ACCEPTED));
    let bad = bad.into_iter().map(|operand| before(operand, (20, 2)));
    let others = [
        before("$$2024-01-01", (20, 1)),
        before("$id", ACCEPTED),
        usual(pair(7, text("2024-01-01"), array(vec![text("$nope")])), (18, 12)),
        usual(pair(7, value(Data::Null), text("2024-01-01")), (20, 2)),
    ];
    good.chain(bad).chain(others).collect()
}

fn paths() -> Vec<Edge> {
    vec![
        read("$fields.a.0", ACCEPTED),
        read("$fields.a.10", ACCEPTED),
        read("$fields.a.99999999999999999999", ACCEPTED),
        read("$fields.a.01", (18, 4)),
        read("$fields.a.0.c.count", (18, 9)),
        read("$fields.a.count.x", (18, 6)),
        read("$fields.n.0.x.y", ACCEPTED),
        read("$fields.m.count", ACCEPTED),
        read("$fields.m.x", (18, 5)),
        read("$fields.s.count", ACCEPTED),
        read("$fields.s.count.", (18, 6)),
        read("$fields.s.x", (18, 10)),
        read("$fields.o.count", ACCEPTED),
        read("$fields.o.count.count", ACCEPTED),
        read("$fields.o.x", (18, 3)),
        read("$fields.j.", (18, 1)),
        read("$fields.j.x.", ACCEPTED),
        over("$fields.a.count", (22, 3)),
        over("$fields.j", (22, 4)),
        over("$fields.j.x", ACCEPTED),
        over("$fields.u.value", ACCEPTED),
        over("$id", (22, 5)),
        Edge { semantics: 1, ..read("$fields.a.0", (18, 10)) },
        Edge { semantics: 1, ..read("$fields.u.value", (18, 10)) },
    ]
}

fn unions() -> Vec<Edge> {
    vec![
        read("$fields.u.value", ACCEPTED),
        read("$fields.u.value.x", (18, 7)),
        read("$fields.u.content.x.y", ACCEPTED),
        read("$fields.u.count", (18, 8)),
        read("$fields.v.count", ACCEPTED),
        read("$fields.v.value", ACCEPTED),
        read("$fields.v.content", (18, 8)),
    ]
}

fn roots() -> Vec<Edge> {
    vec![
        read("$fields.", (18, 1)),
        read("$fields.zz", (18, 2)),
        read("$args.zz.y", ACCEPTED),
        read("$args.", (18, 1)),
        read("$", (18, 12)),
        read("$.x", (18, 12)),
        read("$state", (18, 12)),
        read("$state.x", (18, 12)),
        read("$old_fields.a", ACCEPTED),
        Edge { kind: 1, ..read("$old_fields.a", (18, 11)) },
        Edge { kind: 1, ..read("$args.", (18, 11)) },
        Edge { kind: 6, ..read("$fields", (18, 12)) },
        usual(exists(object(vec![("$nope".to_owned(), text("$$nope"))])), ACCEPTED),
    ]
}

/// Bare `$args` is fine without arguments, a path below it is not.
fn without_arguments() -> Vec<Case> {
    let bare = write_schema(&schema(holder(false, Vec::new()), None));
    let case = |reference: &str, answer: (u32, u32)| {
        let sheet = write_rule(&Sheet::Template(text(reference)));
        Case::new(4, 2, b"t", bare.clone(), sheet).expecting(Expect::Detail(answer.0, answer.1))
    };
    vec![case("$args", ACCEPTED), case("$args.x", (18, 11)), case("$args.", (18, 11))]
}

fn literals() -> Vec<Edge> {
    let equals = |digits: &str, answer| usual(pair(8, number(digits), text("$nope")), answer);
    let below = format!("{}1", &bound()[..bound().len() - 1]);
    vec![
        equals(bound(), (14, 0)),
        equals(&below, (18, 12)),
        equals("1e309", (14, 0)),
        equals("-1e309", (14, 0)),
        equals("0e99999", (18, 12)),
        equals(&format!("1e{}", "9".repeat(500)), (14, 0)),
        equals(&format!("1e-{}", "9".repeat(500)), (18, 12)),
        usual(bound_b(pair(8, number("1e309"), text("x"))), (14, 0)),
        usual(quantifier(20, "b", number("1e309"), literal(true)), (22, 1)),
        usual(exists(number("1e309")), ACCEPTED),
        usual(pair(16, number("1e309"), text("x")), (19, 0)),
        Edge { semantics: 1, ..equals("1e309", (18, 12)) },
    ]
}

/// Where the family changes: bodies, template kinds, sides of `compare`.
fn families() -> Vec<Edge> {
    let unread = || exists(text("$nope"));
    let inner_in = bound_b(quantifier(20, "q", text("$nope"), literal(true)));
    vec![
        usual(bound_b(unread()), (18, 12)),
        usual(inner_in, (18, 12)),
        usual(bound_b(bound_b(all(Vec::new()))), (16, 0)),
        usual(bound_b(pair(17, text("x"), value(Data::Bool(true)))), (19, 0)),
        Edge { kind: 3, ..usual(bound_b(unread()), (18, 12)) },
        Edge { kind: 3, ..usual(bound_b(all(Vec::new())), (16, 0)) },
        Edge { kind: 1, semantics: 2, sheet: Sheet::Template(text("$nope")), answer: (18, 12) },
        usual(compare(1, array(vec![text("$nope")]), text("$nope")), (17, 1)),
        usual(compare(1, text("$id"), object(Vec::new())), (17, 2)),
        Edge { semantics: 1, ..usual(compare(1, array(Vec::new()), text("$nope")), (15, 0)) },
        Edge { semantics: 1, ..usual(quantifier(20, "", value(Data::Null), literal(true)), (15, 0)) },
    ]
}

/// An object of these keys, each with that text.
fn object_of(members: &[(&str, &str)]) -> Value {
    let members = members.iter().map(|(key, member)| ((*key).to_owned(), text(member)));
    value(Data::Object(members.collect()))
}

/// Members in every order, and keys that occur twice, near and far; of two defects that of the member written first.
fn members() -> Vec<Edge> {
    let of_keys = |keys: &[&str], answer| {
        let members: Vec<_> = keys.iter().map(|key| (*key, "$id")).collect();
        Edge { kind: 4, semantics: 1, sheet: Sheet::Template(object_of(&members)), answer }
    };
    let four = ["", "a", "aa", "b"];
    let mut edges = Vec::new();
    for first in four {
        for second in four {
            edges.push(of_keys(&[first, second], if first == second { (5, 0) } else { ACCEPTED }));
            for third in four {
                let is_twice = first == second || third == first || third == second;
                edges.push(of_keys(&[first, second, third], if is_twice { (5, 0) } else { ACCEPTED }));
            }
        }
    }
    let two = |first: (&str, &str), second: (&str, &str)| object_of(&[first, second]);
    edges.extend([
        usual(exists(two(("b", "$nope"), ("a", "$fields."))), (18, 12)),
        usual(exists(two(("a", "$fields."), ("b", "$nope"))), (18, 1)),
        usual(exists(two(("b", "$fields.zz"), ("a", "$nope"))), (18, 2)),
        usual(exists(array(vec![two(("b", "$id"), ("a", "$nope")), text("$fields.")])), (18, 12)),
    ]);
    // An object inside another has keys of its own.
    let inner = value(Data::Object(vec![("b".to_owned(), object_of(&[("b", "$id"), ("a", "$id")])), ("a".to_owned(), text("$id"))]));
    edges.push(usual(exists(inner), ACCEPTED));
    // As many as a sheet can have, falling, and the first key again at the end.
    let keys: Vec<String> = (0..1_022).rev().map(|index| format!("{index:04}")).collect();
    let most: Vec<_> = keys.iter().map(|key| (key.as_str(), "")).collect();
    let again = [&most[..1_021], &most[..1]].concat();
    for (members, answer) in [(most, ACCEPTED), (again, (5, 0))] {
        edges.push(Edge { kind: 4, semantics: 1, sheet: Sheet::Template(object_of(&members)), answer });
    }
    edges
}

fn blanks() -> Vec<Edge> {
    let named = |name: Option<&str>, message: Option<&str>, answer| {
        let texts = [name, message].map(|text| text.map(str::to_owned));
        let [name, message] = texts;
        Edge { kind: 2, semantics: 2, sheet: Sheet::Rule(Rule { name, message, condition: literal(true) }), answer }
    };
    vec![
        named(Some("\u{85}"), None, (11, 0)),
        named(Some(""), Some(""), (11, 0)),
        named(Some("n"), Some("\t \u{2003}"), (12, 0)),
        named(Some("\u{200b}"), Some("\u{1c}"), ACCEPTED),
    ]
}
