//! Rules as JSON: a sheet made of a text beside serde_json building the Rust's `RuleDefinition` from it, and the text made of the sheet beside serde_json writing it.

use crate::library::{self, Conversion};
use crate::{convert, measure, stack};
use entity_core::RuleDefinition;
use model::rule_json::rule_in;
use model::{from_json, to_json};

/// Who answers.
#[derive(Clone, Copy)]
enum Side {
    Reading,
    SerdeReading,
    Writing,
    SerdeWriting,
}

const SIDES: [(&str, Side); 4] =
    [("reading", Side::Reading), ("serde reading", Side::SerdeReading), ("writing", Side::Writing), ("serde writing", Side::SerdeWriting)];

/// A text, and what comes of it: its sheet, and the rule that serde_json reads.
struct Sample {
    text: String,
    sheet: Result<Vec<u8>, u32>,
    rule: RuleDefinition,
}

impl Sample {
    /// Model and serde_json must read the same.
    fn new(text: String) -> Self {
        let rule: RuleDefinition = serde_json::from_str(&text).expect("serde_json reads a measured text");
        let own = rule_in(text.as_bytes()).expect("the model reads a measured text");
        assert!(convert::rule(&own) == rule, "model and serde_json read a measured text as one rule");
        Self { sheet: from_json(text.as_bytes(), usize::MAX), text, rule }
    }
}

/// Hands on the call of one side, after a first one.
fn with_call<T>(sample: &Sample, side: Side, measured: impl FnOnce(&mut dyn FnMut() -> bool) -> T) -> T {
    let mut made = Conversion::new();
    let sheet = sample.sheet.as_deref().unwrap_or_default();
    let text = to_json(sheet, usize::MAX).unwrap_or_default();
    let (number, length) = sample.sheet.as_ref().map_or_else(|number| (*number, 0), |sheet| (0, sheet.len()));
    let mut call = || match side {
        Side::Reading => library::from_json(sample.text.as_bytes(), &mut made) == (number, length),
        Side::SerdeReading => serde_json::from_str::<RuleDefinition>(std::hint::black_box(&sample.text)).is_ok(),
        Side::Writing => library::to_json(sheet, &mut made) == (0, text.len()),
        Side::SerdeWriting => serde_json::to_string(std::hint::black_box(&sample.rule)).is_ok(),
    };
    assert!(call(), "a measured text is answered as it was made to be");
    measured(&mut call)
}

/// Hands on the call of one side for the text of that row, from 0; those that are refused come last.
pub fn on_row(side: &str, row: usize, measured: impl FnOnce(&mut dyn FnMut() -> bool)) -> Result<(), String> {
    let (_, side) = SIDES.iter().find(|(known, _)| *known == side).ok_or("no such side of json")?;
    let (_, make) = made().into_iter().chain(refused()).nth(row).ok_or("no such row of json")?;
    with_call(&Sample::new(make()), *side, measured);
    Ok(())
}

/// A name, and what writes the text.
type Named = (&'static str, fn() -> String);

/// The texts that a sheet is made of.
fn made() -> Vec<Named> {
    vec![
        ("usual, 5 conditions", usual),
        ("40 conditions", || conditions(40)),
        ("40 conditions, indented", || indented(&conditions(40))),
        ("`in` with 1,000 strings", || {
            of_condition("in", &format!("[\"$fields.kind\",[{}]]", list(1_000, |index| format!("\"item{index:04}\""))))
        }),
        ("object of 500 keys", || of_condition("exists", &format!("{{{}}}", list(500, |index| format!("\"k{index:03}\":{}", index % 10))))),
        ("1,900 constants", || of_condition("all", &format!("[{}]", list(1_900, |_| "true".to_owned())))),
        ("31 levels of conditions, 60 of values", deep),
        ("56 strings of 500 bytes", || of_condition("exists", &format!("[{}]", list(56, |index| format!("\"{index:0500}\""))))),
        ("100 strings with escapes", || of_condition("exists", &format!("[{}]", list(100, escaped)))),
    ]
}

/// Texts whose sheet is over a limit.
fn refused() -> Vec<Named> {
    vec![
        ("object of 50,000 keys", || {
            of_condition("exists", &format!("{{{}}}", list(50_000, |index| format!("\"key{index:06}\":{}", index % 10))))
        }),
        ("30,000 numbers", || of_condition("exists", &format!("[{}]", list(30_000, |index| format!("{}", index % 10))))),
        ("a string of 100,000 bytes", || of_condition("exists", &format!("\"{}\"", "x".repeat(100_000)))),
    ]
}

fn list(count: usize, element: impl Fn(usize) -> String) -> String {
    (0..count).map(element).collect::<Vec<_>>().join(",")
}

fn of_condition(operator: &str, operand: &str) -> String {
    format!("{{\"assert\":{{\"{operator}\":{operand}}}}}")
}

fn usual() -> String {
    r#"{"name":"release","assert":{"all":[{"for_all":{"in":"$fields.bars","as":"bar","that":{"eq":["$bar.threaded",true]}}},{"before":["$args.on","2030-01-01"]},{"exists":"$fields.yarn.kind"},{"compare":{"left":"$fields.width","op":"gte","right":1.5}},{"in":["$fields.colour",["red","green","blue"]]}]},"message":"every bar is threaded before the release"}"#
        .to_owned()
}

fn conditions(count: usize) -> String {
    let one = |index: usize| match index % 4 {
        0 => format!("{{\"eq\":[\"$fields.field{index:02}\",\"value{index}\"]}}"),
        1 => format!("{{\"gte\":[\"$fields.field{index:02}\",{index}]}}"),
        2 => format!("{{\"not\":{{\"exists\":\"$fields.field{index:02}\"}}}}"),
        _ => format!("{{\"starts_with\":[\"$fields.field{index:02}\",\"po-\"]}}"),
    };
    of_condition("all", &format!("[{}]", list(count, one)))
}

/// Four blanks a level.
fn indented(text: &str) -> String {
    let value: serde_json::Value = serde_json::from_str(text).expect("a measured text is JSON");
    let mut bytes = Vec::new();
    let layout = serde_json::ser::PrettyFormatter::with_indent(b"    ");
    serde::Serialize::serialize(&value, &mut serde_json::Serializer::with_formatter(&mut bytes, layout)).expect("a value can be written");
    String::from_utf8(bytes).expect("JSON is UTF-8")
}

/// serde_json reads no more than 127 levels.
fn deep() -> String {
    let value = format!("{}1{}", "[".repeat(60), "]".repeat(60));
    let innermost = format!("{{\"exists\":{value}}}");
    let assert = (0..31).fold(innermost, |inner, _| format!("{{\"any\":[{inner}]}}"));
    format!("{{\"assert\":{assert}}}")
}

/// Text and digits, some of it escaped, some of two bytes.
fn escaped(index: usize) -> String {
    format!("\"{}häkeln{index:0125}\"", r#"a \"quoted\" line\n\u00e9\t"#.repeat(3))
}

/// The times of each side in nanoseconds, and of the library's the instructions.
pub struct Row {
    name: &'static str,
    /// Of the text and of the sheet.
    bytes: [usize; 2],
    reading: [f64; 2],
    writing: [f64; 2],
    instructions: [Option<u64>; 2],
}

/// A text that is refused: its bytes, and the times of library and serde_json.
pub struct Refused {
    name: &'static str,
    bytes: usize,
    reading: [f64; 2],
}

pub fn rows(counting: bool) -> (Vec<Row>, Vec<Refused>) {
    eprintln!("bench: json");
    let times = |sample: &Sample, sides: [Side; 2]| sides.map(|side| with_call(sample, side, |call| measure::time(call)));
    let row = |(at, (name, make)): (usize, Named)| {
        let sample = Sample::new(make());
        let count = |side: &str| measure::instructions(&["once", "json", side, &at.to_string()]);
        Row {
            name,
            bytes: [sample.text.len(), sample.sheet.as_ref().expect("a sheet within the limits").len()],
            reading: times(&sample, [Side::Reading, Side::SerdeReading]),
            writing: times(&sample, [Side::Writing, Side::SerdeWriting]),
            instructions: ["reading", "writing"].map(|side| counting.then(|| count(side)).flatten()),
        }
    };
    let refusal = |(name, make): Named| {
        let sample = Sample::new(make());
        assert!(sample.sheet == Err(32), "a sheet over a limit");
        Refused { name, bytes: sample.text.len(), reading: times(&sample, [Side::Reading, Side::SerdeReading]) }
    };
    (made().into_iter().enumerate().map(row).collect(), refused().into_iter().map(refusal).collect())
}

pub fn table((rows, refused): &(Vec<Row>, Vec<Refused>)) -> String {
    let head = "| rule | bytes of JSON | bytes of the sheet | from JSON, µs | serde_json, µs | ratio | to JSON, µs | serde_json, µs | ratio | from JSON, instructions | to JSON, instructions |\n|---|---|---|---|---|---|---|---|---|---|---|\n";
    let line = |row: &Row| {
        let ([read, serde_read], [write, serde_write]) = (row.reading, row.writing);
        let counts = row.instructions.map(|count| count.map_or("-".to_owned(), |count| count.to_string()));
        format!(
            "| {} | {} | {} | {:.2} | {:.2} | {:.2} | {:.2} | {:.2} | {:.2} | {} | {} |\n",
            row.name,
            row.bytes[0],
            row.bytes[1],
            read / 1e3,
            serde_read / 1e3,
            read / serde_read,
            write / 1e3,
            serde_write / 1e3,
            write / serde_write,
            counts[0],
            counts[1]
        )
    };
    let more = "\n| refused by 32 | bytes of JSON | from JSON, µs | serde_json, µs | ratio |\n|---|---|---|---|---|\n";
    let refusal = |row: &Refused| {
        let [read, serde_read] = row.reading;
        format!("| {} | {} | {:.0} | {:.0} | {:.2} |\n", row.name, row.bytes, read / 1e3, serde_read / 1e3, read / serde_read)
    };
    let (rows, refused) = (rows.iter().map(line).collect::<String>(), refused.iter().map(refusal).collect::<String>());
    [head, &rows, more, &refused].concat()
}

/// What the deepest texts and sheets take of the stack.
pub fn depths() -> Vec<(&'static str, usize)> {
    let nested = |open: &str, count: usize, inner: &str, close: &str| format!("{}{inner}{}", open.repeat(count), close.repeat(count));
    let texts = [
        ("from JSON, 1,024 levels of values", of_condition("exists", &nested("[", 1_022, "1", "]"))),
        ("from JSON, 1,024 levels by `not`", format!("{{\"assert\":{}}}", nested("{\"not\":", 1_023, "true", "}"))),
        ("from JSON, 1,023 levels by `all`", format!("{{\"assert\":{}}}", nested("{\"all\":[", 511, "true", "]}"))),
        (
            "from JSON, 1,023 levels by `for_all`",
            format!("{{\"assert\":{}}}", nested("{\"for_all\":{\"in\":1,\"as\":\"b\",\"that\":", 511, "true", "}}")),
        ),
        ("from JSON, 256 levels of conditions and 64 of values", {
            let values = format!("{{\"exists\":{}}}", nested("[", 63, "1", "]"));
            format!("{{\"assert\":{}}}", nested("{\"not\":", 255, &values, "}"))
        }),
        ("from JSON, an object of 50,000 keys", refused()[0].1()),
    ];
    let sheet = format!("R,-,-,\n{}C,5,0,\n{}V,1,0,\n", "C,4,0,\n".repeat(255), "V,6,1,\n".repeat(63));
    let mut made = Conversion::new();
    let mut reading = |text: &str| {
        stack::depth(&mut || {
            library::from_json(text.as_bytes(), &mut made);
        })
    };
    let mut depths: Vec<_> = texts.iter().map(|(name, text)| (*name, reading(text))).collect();
    let writing = stack::depth(&mut || {
        library::to_json(sheet.as_bytes(), &mut made);
    });
    depths.push(("to JSON, 256 levels of conditions and 64 of values", writing));
    depths
}
