//! `exhaustive`: every short reference and collection under every kind and semantics with a dozen schemas, and every instant near a good one.

use crate::library;
use crate::library::lent::Extent;
use crate::oracle::{self, Frame, Schemas};
use crate::runs::agreement::same;
use crate::runs::compare::report;
use crate::runs::instants;
use crate::runs::tally::Tally;
use cases::case::Case;
use cases::generate::build::{
    array, element, exists, field, holder, literal, quantifier, rule, schema, sorted, text, ARRAY, INTEGER, JSON, MAP, OBJECT, STRING,
    UNION,
};
use cases::generate::names::STOCK;
use model::trees::{Field, Holder, Schema, Sheet};
use model::{decode_rule, explain, write_rule, write_schema};

const TOKENS: [&str; 10] = ["$", "b", ".", "0", "1", "é", "fields", "args", "count", "value"];

pub const SCHEMAS: usize = 12;
const LABEL: &str = "r";

/// All texts of up to that many tokens, in each of the three positions, then the instants.
pub fn exhaustive(tokens: u32) -> Result<(), String> {
    let mut tally = Tally::default();
    let worlds: Vec<World> = (0..SCHEMAS).map(World::new).collect();
    for world in &worlds {
        references(world, tokens, &mut tally)?;
        bodies(world, tokens, &mut tally)?;
        collections(world, tokens, &mut tally)?;
    }
    println!("{tally}");
    println!("references of up to {tokens} tokens, in bodies under a binder of up to {tokens}, as collections of up to {}", tokens - 1);
    instants::one_edit_away()?;
    println!("no disagreement");
    Ok(())
}

/// A schema in all its forms.
struct World {
    sheet: Vec<u8>,
    rust: Schemas,
    has_arguments: bool,
}

impl World {
    fn new(index: usize) -> Self {
        let schema = numbered_schema(index);
        Self { sheet: write_schema(&schema), rust: Schemas::new(&schema), has_arguments: schema.arguments.is_some() }
    }

    /// Asks all three about one rule, under each of the settings.
    fn hold(&self, settings: &[(u64, u64)], sheet: &Sheet, tally: &mut Tally) -> Result<(), String> {
        let rule = write_rule(sheet);
        let read = decode_rule(&rule).ok_or("a generated rule sheet is not read")?;
        for &(kind, semantics) in settings {
            let case = Case::new(kind, semantics, LABEL.as_bytes(), self.sheet.clone(), rule.clone());
            let (answer, message) = explain(&case.call());
            let verdict = oracle::ask(Frame { kind, semantics, label: LABEL, table: &[] }, &self.rust, &read);
            let agreed = verdict.and_then(|verdict| same(&answer, message.as_deref(), &verdict, &read));
            let agreed = agreed.and_then(|()| library::checks::hold(&case, &answer, Extent::Some));
            let agreed = agreed.and_then(|()| library::messages::hold(&case, &answer, message.as_deref(), Extent::Some));
            agreed.map_err(|trouble| report(&case, &trouble, "exhaustive"))?;
            tally.add((answer.number, answer.family, answer.detail), 1);
        }
        Ok(())
    }
}

/// The text that a number stands for, if it has exactly `length` tokens.
fn tokens_of(mut index: usize, length: u32) -> String {
    let mut text = String::new();
    for _ in 0..length {
        text.push_str(TOKENS[index % TOKENS.len()]);
        index /= TOKENS.len();
    }
    text
}

/// Every text of up to `length` tokens.
fn texts(length: u32) -> impl Iterator<Item = String> {
    (0..=length).flat_map(|length| (0..TOKENS.len().pow(length)).map(move |index| tokens_of(index, length)))
}

/// Every kind with every semantics.
fn all_settings() -> Vec<(u64, u64)> {
    (1..=8).flat_map(|kind| (1..=4).map(move |semantics| (kind, semantics))).collect()
}

/// References as a template, under every kind and semantics.
fn references(world: &World, tokens: u32, tally: &mut Tally) -> Result<(), String> {
    let settings = all_settings();
    for tail in texts(tokens - 1) {
        world.hold(&settings, &Sheet::Template(text(&format!("${tail}"))), tally)?;
    }
    Ok(())
}

/// The kinds that read the collection in the record, then those that only read it in the arguments, each with its semantics.
fn by_collection(world: &World, settings: Vec<(u64, u64)>) -> Vec<(&'static str, Vec<(u64, u64)>)> {
    let (record, arguments) = settings.into_iter().partition(|(kind, _)| STOCK.may_read(*kind, "fields"));
    let mut found = vec![("$fields.arr", record)];
    if world.has_arguments {
        found.push(("$args.arr", arguments));
    }
    found
}

/// References that begin with a binder's name, in its body.
fn bodies(world: &World, tokens: u32, tally: &mut Tally) -> Result<(), String> {
    for (collection, settings) in by_collection(world, all_settings()) {
        for tail in texts(tokens - 2) {
            let body = exists(array(vec![text(&format!("$b{tail}"))]));
            world.hold(&settings, &rule(quantifier(20, "b", text(collection), body)), tally)?;
        }
    }
    Ok(())
}

/// Any text as the collection of a quantifier inside another one; each kind with one of the service semantics.
fn collections(world: &World, tokens: u32, tally: &mut Tally) -> Result<(), String> {
    let settings = (1..=8).map(|kind| (kind, 2 + kind % 3)).collect();
    for (collection, settings) in by_collection(world, settings) {
        for over in texts(tokens - 1) {
            let inner = quantifier(21, "q", text(&over), literal(true));
            world.hold(&settings, &rule(quantifier(20, "b", text(collection), inner)), tally)?;
        }
    }
    Ok(())
}

/// Schema `index`: names that the tokens can spell, with shapes that go round.
pub fn numbered_schema(index: usize) -> Schema {
    const NAMES: [&str; 8] = ["b", "é", "0", "count", "value", "fields", "1", "args"];
    let fields = |shift: usize| -> Vec<Field> {
        let named = (0..4).map(|at| Field { name: NAMES[(index + shift + at) % NAMES.len()].to_owned(), ..shape(index + shift + 5 * at) });
        named.chain([Field { items: element(shape(index)), ..field("arr", ARRAY) }]).collect()
    };
    let record: Holder = holder(index % 4 == 1, fields(0));
    let arguments = if index % 3 == 0 { None } else { Some(holder(index % 4 == 2, fields(3))) };
    schema(record, arguments)
}

fn shape(index: usize) -> Field {
    let tagged = |tag: &str| Field { tag: Some(tag.to_owned()), ..field("", UNION) };
    let of = |kind: u8, items: Field| Field { items: element(items), ..field("", kind) };
    let object = |open: bool| Field { open, properties: members(), ..field("", OBJECT) };
    match index % SCHEMAS {
        0 => field("", STRING),
        1 => field("", INTEGER),
        2 => field("", ARRAY),
        3 => of(ARRAY, object(false)),
        4 => of(ARRAY, of(ARRAY, field("", STRING))),
        5 => object(false),
        6 => object(true),
        7 => field("", JSON),
        8 => of(MAP, object(false)),
        9 => tagged("b"),
        10 => tagged("value"),
        _ => tagged("count"),
    }
}

fn members() -> Vec<Field> {
    let array = Field { items: element(field("", STRING)), ..field("b", ARRAY) };
    let union = Field { tag: Some("é".to_owned()), ..field("value", UNION) };
    sorted(vec![array, union, field("0", MAP), field("count", INTEGER), field("", ARRAY)])
}
