//! A defect for each row of the table of sentences, with its message, written out by hand.

use crate::case::{Case, Expect};
use crate::generate::build::{
    all, array, compare, condition, element, exists, field, holder, literal, not, number, object, pair, quantifier, rule, schema, sorted,
    text, value, ARRAY, OBJECT, STRING, UNION,
};
use crate::limits::MAX_TEXT_BYTES;
use model::table::Table;
use model::trees::{Condition, Data, Field, Operator, Rule, Schema, Sheet, Value};
use model::{write_rule, write_schema};

/// A rule or template under a kind and semantics, its number and detail, and the message.
struct Edge {
    kind: u64,
    semantics: u64,
    sheet: Sheet,
    answer: (u32, u32),
    message: String,
}

/// The kinds of a field, from 1 on, as a message spells them.
const KINDS: [&str; 12] = ["string", "integer", "number", "boolean", "enum", "array", "object", "json", "ref", "map", "union", "binary64"];

/// What each kind is called and may read.
const READERS: [&str; 8] = [
    "an entity invariant may read $id, $entity, $version, $state, $fields, $fields.<path>",
    "an operation precondition may read $id, $entity, $version, $from_state, $to_state, $args, $args.<path>, $fields, $fields.<path>, \
     $old_fields, $old_fields.<path>",
    "a creation event payload may read $id, $entity, $version, $state, $to_state, $fields, $fields.<path>",
    "an operation template may read $id, $entity, $version, $state, $from_state, $to_state, $args, $args.<path>, $fields, $fields.<path>, \
     $old_fields, $old_fields.<path>",
    "an outcome selector may read $id, $entity, $version, $from_state, $args, $args.<path>, $fields, $fields.<path>",
    "a creation outcome selector may read $id, $entity, $version, $args, $args.<path>",
    "a creation outcome assignment may read $id, $entity, $version, $state, $to_state, $args, $args.<path>",
    "a creation outcome template may read $id, $entity, $version, $state, $to_state, $args, $args.<path>, $fields, $fields.<path>",
];

const NO_INSTANT: &str =
    " is not an instant this kernel reads, so the comparison would be unobservable at every evaluation; an operand of \
                          'before'/'after' is either a '$' reference or a literal instant written `YYYY-MM-DD` or \
                          `YYYY-MM-DDTHH:MM:SS[.fff][Z]`, where a space may stand in for the `T` and an explicit offset is not read";

const NO_STRING: &str = " is not a string, so the rule would be false at every evaluation; quote it if it is meant as text";

/// Each with its message.
pub fn edges() -> Vec<(Case, String)> {
    let known = [headings(), depths(), literals(), operators(), references(), steps(), available(), affixes(), instants(), collections()];
    let schema = write_schema(&edge_schema());
    let case = |edge: Edge| {
        let (number, detail) = edge.answer;
        let case = Case::new(edge.kind, edge.semantics, b"r", schema.clone(), write_rule(&edge.sheet));
        (case.expecting(Expect::Detail(number, detail)), edge.message)
    };
    known.into_iter().flatten().map(case).chain(under_tables()).collect()
}

/// Nearly the longest message: a full sheet of bytes that are escaped by their numbers.
pub fn longest() -> (Case, String) {
    const TEXTS: usize = 57;
    let list = array(vec![text(&"\u{1}".repeat(MAX_TEXT_BYTES)); TEXTS]);
    let case = Case::new(2, 2, b"r", write_schema(&edge_schema()), write_rule(&rule(pair(17, list, text("x")))));
    let printed = format!("\"{}\"", "\\u0001".repeat(MAX_TEXT_BYTES));
    (case.expecting(Expect::Number(19)), format!("[{}]{NO_STRING}", vec![printed; TEXTS].join(",")))
}

/// A field of each kind by its name, unions with each sort of tag, and closed objects; no more. The arguments have one text.
fn edge_schema() -> Schema {
    let leaves = || KINDS.iter().zip(1..).map(|(name, kind)| field(name, kind));
    let every = Field { properties: sorted(leaves().collect()), ..field("", OBJECT) };
    let tagged = |name: &str, tag: &str| Field { tag: Some(tag.to_owned()), ..field(name, UNION) };
    let inner = Field { properties: vec![field("k", 2)], ..field("it's", OBJECT) };
    let closed = |name: &str| Field { properties: vec![inner.clone(), field("k", 2)], ..field(name, OBJECT) };
    let others = [
        tagged("kinded", "kind"),
        tagged("untagged", ""),
        tagged("valued", "value"),
        closed("o"),
        Field { items: element(closed("")), ..field("list", ARRAY) },
        Field { items: element(every), ..field("every", ARRAY) },
        field("q\"\\\u{1}", STRING),
    ];
    schema(holder(false, leaves().chain(others).collect()), Some(holder(false, vec![field("on", STRING)])))
}

fn edge(sheet: Sheet, answer: (u32, u32), message: &str) -> Edge {
    Edge { kind: 2, semantics: 2, sheet, answer, message: message.to_owned() }
}

fn headings() -> Vec<Edge> {
    let headed = |name: Option<&str>, message: Option<&str>| {
        Sheet::Rule(Rule { name: name.map(str::to_owned), message: message.map(str::to_owned), condition: literal(true) })
    };
    vec![
        edge(headed(Some(""), Some("")), (11, 0), "rule name cannot be empty"),
        edge(headed(Some("\u{3000}\n"), None), (11, 0), "rule name cannot be empty"),
        edge(headed(Some("n"), Some(" ")), (12, 0), "rule message cannot be empty"),
    ]
}

/// The depth is the condition's own, up to the most that a sheet can have.
fn depths() -> Vec<Edge> {
    let nots = |depth: usize| (1..depth).fold(literal(true), |inner, _| not(inner));
    let made = [33, 34, 99, 100, 255, 256].map(|depth| edge(rule(nots(depth)), (13, 0), &depth.to_string()));
    let beside = rule(all(vec![nots(40), literal(true), nots(44)]));
    made.into_iter().chain([edge(beside, (13, 0), "45")]).collect()
}

fn literals() -> Vec<Edge> {
    let told = |number: &str| {
        format!("{number} is outside the source observation domain, so the comparison would be unevaluable at every evaluation")
    };
    let numbers = ["1e309", "-1E+309", "1E0000400"].map(|digits| {
        let list = array(vec![number("1"), object(vec![("k".to_owned(), number(digits))])]);
        edge(rule(pair(8, text("$id"), list)), (14, 0), &told(digits))
    });
    numbers.into_iter().collect()
}

fn operators() -> Vec<Edge> {
    let over = || text("$fields.list");
    let service = [
        (compare(1, number("1"), number("1")), "compare"),
        (condition(Operator::Truthy(number("1"))), "truthy"),
        (quantifier(20, "b", over(), literal(true)), "for_all"),
        (quantifier(21, "b", over(), literal(true)), "for_any"),
    ];
    let service = service.map(|(leaf, name)| Edge { semantics: 1, ..edge(rule(leaf), (15, 0), name) });
    let binds = ["", " ", "a.b", "\"\\.\u{1}"];
    let binds = binds.map(|bind| edge(rule(quantifier(20, bind, over(), literal(true))), (21, 0), bind));
    let none = || all(Vec::new());
    let any = || condition(Operator::Any(Vec::new()));
    let sides = [(array(vec![]), text("$id"), 1, "left"), (text("$id"), object(vec![]), 2, "right")];
    let sides = sides.map(|(left, right, detail, side)| edge(rule(compare(2, left, right)), (17, detail), side));
    let empty = [
        edge(rule(none()), (16, 0), "'all' must contain at least one condition"),
        edge(rule(not(any())), (16, 0), "'any' must contain at least one condition"),
        edge(rule(quantifier(20, "b", over(), any())), (16, 0), "'any' must contain at least one condition"),
    ];
    service.into_iter().chain(binds).chain(empty).chain(sides).collect()
}

/// A reference as a template, and the sentence after its own text.
fn unresolved(reference: &str, detail: u32, sentence: &str) -> Edge {
    edge(Sheet::Template(text(reference)), (18, detail), &format!("'{reference}' cannot resolve: {sentence}"))
}

/// The details of a reference that are found on its way.
fn references() -> Vec<Edge> {
    let of_union = "it carries 'kind' and 'value'";
    vec![
        unresolved("$fields.", 1, "the path is empty"),
        unresolved("$old_fields..k", 1, "the path is empty"),
        unresolved("$fields.o..k", 1, "the path is empty"),
        unresolved("$fields.zz", 2, "unknown field 'zz'"),
        unresolved("$old_fields.it's.k", 2, "unknown field 'it's'"),
        unresolved("$args.\"", 2, "unknown argument '\"'"),
        unresolved("$fields.o.zz.k", 3, "'o' declares no property 'zz'"),
        unresolved("$old_fields.o.it's.zz", 3, "'o.it's' declares no property 'zz'"),
        unresolved("$fields.list.0.it's.\u{1}", 3, "'list.0.it's' declares no property '\u{1}'"),
        unresolved(
            "$fields.list.x.k",
            4,
            "'list' is an array field, so 'x' resolves to nothing; an array addresses `count` or an element index",
        ),
        unresolved(
            "$fields.map.0",
            5,
            "'map' is a map field, so '0' resolves to nothing; a map's keys are not addressable and only `count` reads it",
        ),
        unresolved("$fields.list.count.a.b", 6, "'list.count' is a count, so 'a.b' resolves to nothing"),
        unresolved("$fields.string.count.", 6, "'string.count' is a count, so '' resolves to nothing"),
        unresolved("$fields.map.count.count", 6, "'map.count' is a count, so 'count' resolves to nothing"),
        unresolved("$fields.kinded.kind.x.y", 7, "'kinded.kind' is the union's tag, so 'x.y' resolves to nothing"),
        unresolved("$fields.kinded.count.x", 8, &format!("'kinded' is a union field, so 'count' resolves to nothing; {of_union}")),
        unresolved("$fields.valued.x", 8, "'valued' is a union field, so 'x' resolves to nothing; it carries 'value' and 'content'"),
        unresolved("$fields.untagged.x", 8, "'untagged' is a union field, so 'x' resolves to nothing; it carries '' and 'value'"),
        unresolved("$fields.union.x", 8, "'union' is a union field, so 'x' resolves to nothing; it carries '' and 'value'"),
        unresolved("$fields.q\"\\\u{1}.'", 10, "'q\"\\\u{1}' is a string field, so ''' resolves to nothing"),
    ]
}

/// Steps into a field of each kind: under service, under kernel/1, and from a binder's element.
fn steps() -> Vec<Edge> {
    let mut edges = Vec::new();
    for (name, number) in KINDS.iter().zip(1_u8..) {
        let nowhere = |walked: &str, segment: &str| format!("'{walked}' is a {name} field, so '{segment}' resolves to nothing");
        if !matches!(number, 7 | 8) {
            let edge = unresolved(&format!("$fields.{name}.count.x"), 10, &nowhere(name, "count"));
            edges.push(Edge { semantics: 1, ..edge });
        }
        if !matches!(number, 1 | 6 | 7 | 8 | 10 | 11) {
            let count = format!("{}; `count` reads a text, an array or a map", nowhere(name, "count"));
            edges.push(unresolved(&format!("$fields.{name}.count.x"), 9, &count));
        }
        if !matches!(number, 6 | 7 | 8 | 10 | 11) {
            edges.push(unresolved(&format!("$fields.{name}.0.x"), 10, &nowhere(name, "0")));
        }
    }
    let bound = |body: Condition, answer, message: &str| edge(rule(quantifier(20, "it's", text("$fields.list"), body)), answer, message);
    let at_binder = [
        ("$it's.zz", 3, "'$it's' declares no property 'zz'"),
        ("$it's.it's.k.x.y", 10, "'$it's.it's.k' is a integer field, so 'x' resolves to nothing"),
        ("$it's.", 1, "the path is empty"),
    ];
    let bodies = at_binder.map(|(reference, detail, sentence)| {
        bound(exists(text(reference)), (18, detail), &format!("'{reference}' cannot resolve: {sentence}"))
    });
    edges.into_iter().chain(bodies).collect()
}

/// Names that a kind may not read, with the list of those that it may.
fn available() -> Vec<Edge> {
    let mut edges = Vec::new();
    for (kind, readers) in (1..).zip(READERS) {
        let bare = edge(Sheet::Template(text("$nope")), (18, 12), &format!("'$nope' is not a reference available here; {readers}"));
        edges.push(Edge { kind, ..bare });
        let root = match kind {
            1 | 3 => "$args.on",
            5 | 8 => "$old_fields.o",
            6 | 7 => "$fields.o",
            _ => continue,
        };
        let hidden = edge(Sheet::Template(text(root)), (18, 11), &format!("'{root}' is not available here; {readers}"));
        edges.push(Edge { kind, ..hidden });
    }
    edges
}

/// Every sort of value as JSON.
fn values() -> Vec<(Value, &'static str)> {
    let member = |key: &str, value: Value| (key.to_owned(), value);
    vec![
        (value(Data::Null), "null"),
        (value(Data::Bool(true)), "true"),
        (value(Data::Bool(false)), "false"),
        (number("-0"), "-0"),
        (number("1E+5"), "1E+5"),
        (number("0.10e-07"), "0.10e-07"),
        (array(Vec::new()), "[]"),
        (object(Vec::new()), "{}"),
        (array(vec![number("-0"), text("a"), array(vec![value(Data::Null)])]), "[-0,\"a\",[null]]"),
        (
            object(vec![member("z", number("1")), member("a\"\\", object(vec![member("", text("$$x"))]))]),
            "{\"z\":1,\"a\\\"\\\\\":{\"\":\"$$x\"}}",
        ),
        (
            array(vec![text("\u{8}\t\n\u{c}\r\u{0}\u{1}\u{b}\u{1f}/\u{7f}\u{80}\u{2028}'é")]),
            "[\"\\b\\t\\n\\f\\r\\u0000\\u0001\\u000b\\u001f/\u{7f}\u{80}\u{2028}'é\"]",
        ),
    ]
}

fn affixes() -> Vec<Edge> {
    let told = |(value, json): (Value, &str)| edge(rule(pair(16, value, text("x"))), (19, 0), &format!("{json}{NO_STRING}"));
    let second = edge(rule(pair(17, text("$id"), number("-0"))), (19, 0), &format!("-0{NO_STRING}"));
    let body = pair(17, text("$b.k"), number("1E+5"));
    let bound = edge(rule(quantifier(21, "b", text("$fields.list"), body)), (19, 0), &format!("1E+5{NO_STRING}"));
    values().into_iter().map(told).chain([second, bound]).collect()
}

fn instants() -> Vec<Edge> {
    let told = |(value, json): (Value, &str)| edge(rule(pair(6, text("2024-01-01"), value)), (20, 2), &format!("{json}{NO_INSTANT}"));
    let texts = [("2024-01-01Z", "\"2024-01-01Z\""), (" $id", "\" $id\""), ("", "\"\""), ("a\u{1}\n'", "\"a\\u0001\\n'\"")];
    let texts = texts.map(|(literal, json)| (text(literal), json));
    let escaped = [("$$2024-01-01", "\"$$2024-01-01\""), ("$$", "\"$$\""), ("$$'\"", "\"$$'\\\"\"")];
    let escaped = escaped.map(|(literal, json)| {
        let message = format!("{json} escapes to the literal '{}', which{NO_INSTANT}", &literal[1..]);
        edge(rule(pair(7, text(literal), text("$id"))), (20, 1), &message)
    });
    values().into_iter().chain(texts).map(told).chain(escaped).collect()
}

fn collections() -> Vec<Edge> {
    let over = |over: Value, detail: u32, message: &str| edge(rule(quantifier(20, "b", over, literal(true))), (22, detail), message);
    let within = |name: &str, detail: u32, message: &str| {
        let inner = quantifier(21, "c", text(name), literal(true));
        edge(rule(quantifier(20, "it's", text("$fields.list"), inner)), (22, detail), message)
    };
    let mut edges = vec![
        over(number("1"), 1, "`in` is a reference to an array or map field"),
        over(array(vec![text("$fields.list")]), 1, "`in` is a reference to an array or map field"),
        within("xit's.zz", 2, "nothing declares a property 'zz'"),
        within("-it's.it's..k", 2, "nothing declares a property ''"),
        within("xit's.k.x.y", 3, "a integer field has no member 'x'"),
        over(text(""), 5, "'' is not a reference to a collection"),
        over(text("$id"), 5, "'$id' is not a reference to a collection"),
        over(text("$$fields.list"), 5, "'$$fields.list' is not a reference to a collection"),
        over(text("it's\"\\"), 5, "'it's\"\\' is not a reference to a collection"),
        over(text("éfields.list"), 5, "'éfields.list' is not a reference to a collection"),
    ];
    for (name, number) in KINDS.iter().zip(1_u8..) {
        if !matches!(number, 6 | 10) {
            edges.push(over(
                text(&format!("$fields.{name}")),
                4,
                &format!("it is a {name} field, and a quantifier walks an array or a map"),
            ));
        }
        if matches!(number, 1 | 6 | 10) {
            edges.push(over(text(&format!("$fields.{name}.count")), 3, &format!("a {name} field has no member 'count'")));
        }
        if !matches!(number, 7 | 8 | 11) {
            let inner = quantifier(21, "c", text(&format!("xb.{name}.x.y")), literal(true));
            let sheet = rule(quantifier(20, "b", text("$fields.every"), inner));
            edges.push(edge(sheet, (22, 3), &format!("a {name} field has no member 'x'")));
        }
    }
    edges
}

/// Under a table that hides what the stock one shows, the list of names is the stock one all the same.
fn under_tables() -> Vec<(Case, String)> {
    let mut table = Table::stock();
    for row in &mut table.0 {
        row[3..].fill(false);
    }
    let schema = write_schema(&edge_schema());
    let case = |kind: u64, reference: &str, detail: u32| {
        let case = Case::new(kind, 2, b"r", schema.clone(), write_rule(&Sheet::Template(text(reference))));
        case.under(table.write()).expecting(Expect::Detail(18, detail))
    };
    let mut cases = Vec::new();
    for (kind, readers) in (1..).zip(READERS) {
        cases.push((case(kind, "$args", 12), format!("'$args' is not a reference available here; {readers}")));
        cases.push((case(kind, "$fields.o", 11), format!("'$fields.o' is not available here; {readers}")));
    }
    cases
}
