//! A mill's pattern record as it was and as it has grown, rules that an operation on it must meet, a book of them, and one that the mill's own name table allows.

use entity_rules::{
    Book, Condition, Field, FieldKind, Kind, Name, Rule, Schema, Table, Template, Value,
};
use std::error::Error;

/// A pattern: its name, when it was drawn, and the bars that it names. Whoever releases it says who and when.
pub fn pattern() -> Schema {
    let bar = Field::element(FieldKind::Object)
        .property(Field::new("number", FieldKind::Integer))
        .property(Field::new("threaded", FieldKind::Boolean));
    Schema::new()
        .field(Field::new("name", FieldKind::String))
        .field(Field::new("drawn", FieldKind::String))
        .field(Field::new("bars", FieldKind::Array).items(bar))
        .argument(Field::new("by", FieldKind::String))
        .argument(Field::new("on", FieldKind::String))
}

/// The pattern as it has grown: bars have a tension, and it says which loom it is for. Whoever releases it may say more than is declared.
pub fn wider() -> Schema {
    let bar = Field::element(FieldKind::Object)
        .property(Field::new("number", FieldKind::Integer))
        .property(Field::new("tension", FieldKind::Number))
        .property(Field::new("threaded", FieldKind::Boolean));
    let loom = Field::new("loom", FieldKind::Object)
        .property(Field::new("name", FieldKind::String))
        .property(Field::new("width", FieldKind::Integer));
    Schema::new()
        .field(Field::new("name", FieldKind::String))
        .field(Field::new("drawn", FieldKind::String))
        .field(Field::new("bars", FieldKind::Array).items(bar))
        .field(loom)
        .argument(Field::new("by", FieldKind::String))
        .argument(Field::new("on", FieldKind::String))
        .open_arguments()
}

/// A pattern may be released only if it names bars and every one of them is threaded.
pub fn release() -> Rule {
    Rule::new(Condition::all([
        Condition::gt("$fields.bars.count", 0),
        Condition::for_all("bar", "$fields.bars", Condition::eq("$bar.threaded", true)),
        Condition::after("$args.on", "$fields.drawn"),
    ]))
    .name("release")
    .message("every bar must be threaded")
}

/// The same for one bar, with a letter missing: bars have no `threded`.
pub fn misspelt() -> Rule {
    Rule::new(Condition::for_all(
        "bar",
        "$fields.bars",
        Condition::eq("$bar.threded", true),
    ))
    .name("release")
    .message("every bar must be threaded")
}

/// A pattern may be released only if it fits the loom, which only the grown record has.
pub fn fits() -> Rule {
    Rule::new(Condition::gte("$fields.loom.width", "$fields.bars.count")).name("fits")
}

/// The mill's book of what a release must meet, with a defect in some of it.
pub fn book() -> Result<Book, Box<dyn Error>> {
    let bars = |body| Condition::for_all("bar", "$fields.bars", body);
    let rules = [
        release(),
        misspelt(),
        fits(),
        Rule::new(Condition::exists("$args.by")).name("signed"),
        Rule::new(bars(Condition::gt("$bar.number", 0))).name("numbered from one"),
        // The name was left blank.
        Rule::new(Condition::ne("$fields.name", "")).name(" "),
        // The tension is a field of the grown record.
        Rule::new(bars(Condition::lte("$bar.tension", 9.5))).name("not too tight"),
        // There is no 31st of April.
        Rule::new(Condition::after("$fields.drawn", "2024-04-31")).name("new drawings only"),
        // A name is not a collection.
        Rule::new(Condition::for_any(
            "mark",
            "$fields.name",
            Condition::truthy("$mark"),
        )),
        Rule::new(Condition::any([])).name("to be written"),
        Rule::new(Condition::after("$args.on", "$fields.drawn")).name("not before it is drawn"),
    ];
    let mut book = Book::new();
    for rule in rules {
        book.extend([rule.sheet()?]);
    }
    let event = Value::object([("by", "$args.by"), ("pattern", "$fields.name")]);
    book.extend([Template::new(event).sheet()?]);
    // The last one was cut while it was copied.
    let mut cut = release().sheet()?.into_bytes();
    cut.truncate(99);
    book.extend([cut]);
    Ok(book)
}

/// Which way a release takes goes by the state that the pattern is in.
pub fn branch() -> Rule {
    Rule::new(Condition::eq("$state", "drawn")).name("from the drawing board")
}

/// A pattern is drawn in a season that ends after it begins; the latter is true of every pattern.
pub fn season() -> Rule {
    Rule::new(Condition::all([
        Condition::after("$fields.drawn", "2024-03-01"),
        Condition::before("2024-03-01", "2024-09-30T12:00:00Z"),
    ]))
    .name("season")
}

/// The mill's own name table: outcome selectors read `$state`.
pub fn own() -> Table {
    Table::stock().show(Kind::OutcomeSelector, Name::State)
}

/// The name of a file, and the sheet in it.
pub type File = (&'static str, Vec<u8>);

/// All files of this folder.
pub fn files() -> Result<[File; 9], Box<dyn Error>> {
    Ok([
        ("pattern.schema", pattern().sheet()?.into()),
        ("wider.schema", wider().sheet()?.into()),
        ("release.rule", release().sheet()?.into()),
        ("misspelt.rule", misspelt().sheet()?.into()),
        ("fits.rule", fits().sheet()?.into()),
        ("branch.rule", branch().sheet()?.into()),
        ("season.rule", season().sheet()?.into()),
        ("own.table", own().sheet()?),
        ("mill.book", book()?.bytes().to_vec()),
    ])
}
