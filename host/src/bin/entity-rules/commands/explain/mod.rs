//! `explain`: what a number of an answer means, with an example that is checked on the spot.

pub mod meaning;

use crate::checked::{Checked, sheets_outcome};
use crate::report::{self, Palette};
use crate::source::Source;
use crate::subject::Subject;
use entity_rules::limits::TABLE_BYTES;
use entity_rules::{
    Book, Check, DefectNumber, Kind, PathVerdict, Reader, ReferenceFault, Semantics, Table,
    Verdict, check_path, rule_from_json,
};
use meaning::{Asked, details, mend};
use std::path::Path;

/// What is printed for a number.
pub fn text(asked: Asked) -> String {
    let headline = asked.headline().unwrap_or_default();
    let mend = mend(asked.number);
    let details = match asked.detail {
        None => details(asked.number),
        Some(_) => String::new(),
    };
    let shown = example(asked).map(Example::text).unwrap_or_default();
    format!("{headline}\n{details}\n{mend}\n{shown}")
}

fn example(asked: Asked) -> Option<&'static Example> {
    let is_asked = |(number, detail, _): &&(u32, u32, Example)| {
        *number == asked.number && asked.detail.is_none_or(|wanted| wanted == *detail)
    };
    EXAMPLES
        .iter()
        .find(is_asked)
        .map(|(_, _, example)| example)
}

/// What shows a number.
enum Example {
    Sheets {
        semantics: Semantics,
        schema: &'static str,
        rule: &'static str,
    },
    Key(&'static str),
    Json(&'static str),
    Book(&'static str),
    Table(&'static str),
}

/// An array `a` of objects without properties, an integer `i`, a map `m`, an object `o` with a string `p`, and a union `u` whose tag is `kind`.
const SCHEMA: &str = "H,0,5,-,0\nF,6,0,1,0,1,-,a\nF,7,0,0,0,0,-,\nF,2,0,0,0,1,-,i\nF,10,0,0,0,1,-,m\n\
     F,7,0,0,1,1,-,o\nF,1,0,0,0,1,-,p\nF,11,0,0,0,1,4,ukind\n";

const fn service(rule: &'static str) -> Example {
    Example::Sheets {
        semantics: Semantics::Service1,
        schema: SCHEMA,
        rule,
    }
}

/// Each number and detail with its example.
const EXAMPLES: &[(u32, u32, Example)] = &[
    (0, 0, service("R,-,-,\nC,5,0,\nV,5,11,$fields.o.p\n")),
    (
        4,
        0,
        Example::Sheets {
            semantics: Semantics::Service1,
            schema: "H,0,1,-,0\nF,13,0,0,0,1,-,a\n",
            rule: "R,-,-,\nC,1,1,\n",
        },
    ),
    (5, 0, service("R,-,-,\nC,4,0,\n")),
    (11, 0, service("R,1,-, \nC,1,1,\n")),
    (12, 0, service("R,-,1, \nC,1,1,\n")),
    (
        13,
        0,
        service(concat!(
            "R,-,-,\n",
            "C,4,0,\nC,4,0,\nC,4,0,\nC,4,0,\nC,4,0,\nC,4,0,\nC,4,0,\nC,4,0,\n",
            "C,4,0,\nC,4,0,\nC,4,0,\nC,4,0,\nC,4,0,\nC,4,0,\nC,4,0,\nC,4,0,\n",
            "C,4,0,\nC,4,0,\nC,4,0,\nC,4,0,\nC,4,0,\nC,4,0,\nC,4,0,\nC,4,0,\n",
            "C,4,0,\nC,4,0,\nC,4,0,\nC,4,0,\nC,4,0,\nC,4,0,\nC,4,0,\nC,4,0,\n",
            "C,1,1,\n"
        )),
    ),
    (
        14,
        0,
        service("R,-,-,\nC,8,0,\nV,5,9,$fields.i\nV,4,5,1e309\n"),
    ),
    (
        15,
        0,
        Example::Sheets {
            semantics: Semantics::Kernel1,
            schema: SCHEMA,
            rule: "R,-,-,\nC,19,0,\nV,5,9,$fields.i\n",
        },
    ),
    (16, 0, service("R,-,-,\nC,2,0,\n")),
    (17, 1, service("R,-,-,\nC,18,1,\nV,6,0,\nV,5,9,$fields.i\n")),
    (17, 2, service("R,-,-,\nC,18,1,\nV,5,9,$fields.i\nV,7,0,\n")),
    (18, 1, service("R,-,-,\nC,5,0,\nV,5,8,$fields.\n")),
    (18, 2, service("R,-,-,\nC,5,0,\nV,5,9,$fields.b\n")),
    (18, 3, service("R,-,-,\nC,5,0,\nV,5,11,$fields.o.q\n")),
    (18, 4, service("R,-,-,\nC,5,0,\nV,5,15,$fields.a.first\n")),
    (18, 5, service("R,-,-,\nC,5,0,\nV,5,13,$fields.m.key\n")),
    (18, 6, service("R,-,-,\nC,5,0,\nV,5,17,$fields.a.count.x\n")),
    (18, 7, service("R,-,-,\nC,5,0,\nV,5,16,$fields.u.kind.x\n")),
    (18, 8, service("R,-,-,\nC,5,0,\nV,5,11,$fields.u.x\n")),
    (18, 9, service("R,-,-,\nC,5,0,\nV,5,15,$fields.i.count\n")),
    (18, 10, service("R,-,-,\nC,5,0,\nV,5,11,$fields.i.x\n")),
    (18, 11, service("R,-,-,\nC,5,0,\nV,5,8,$args.on\n")),
    (18, 12, service("R,-,-,\nC,5,0,\nV,5,6,$state\n")),
    (18, 13, Example::Key("o.p.count")),
    (
        19,
        0,
        service("R,-,-,\nC,16,0,\nV,5,11,$fields.o.p\nV,4,1,7\n"),
    ),
    (
        20,
        1,
        service("R,-,-,\nC,6,0,\nV,5,12,$$2024-01-01\nV,5,11,$fields.o.p\n"),
    ),
    (
        20,
        2,
        service("R,-,-,\nC,6,0,\nV,5,10,2023-02-29\nV,5,11,$fields.o.p\n"),
    ),
    (
        21,
        0,
        service("R,-,-,\nC,20,3,a.b\nV,5,9,$fields.a\nC,1,1,\n"),
    ),
    (22, 1, service("R,-,-,\nC,20,1,b\nV,4,1,7\nC,1,1,\n")),
    (
        22,
        2,
        service("R,-,-,\nC,20,1,b\nV,5,9,$fields.a\nC,20,1,c\nV,5,4,xb.q\nC,1,1,\n"),
    ),
    (
        22,
        3,
        service("R,-,-,\nC,20,1,b\nV,5,17,$fields.o.p.count\nC,1,1,\n"),
    ),
    (
        22,
        4,
        service("R,-,-,\nC,20,1,b\nV,5,9,$fields.i\nC,1,1,\n"),
    ),
    (22, 5, service("R,-,-,\nC,20,1,b\nV,5,3,$id\nC,1,1,\n")),
    (
        31,
        0,
        Example::Json("{\n  \"name\": \"example\",\n  \"assert\": {\"exits\": \"$fields.i\"}\n}\n"),
    ),
    (
        32,
        0,
        Example::Json(concat!(
            "{\"assert\": {\"exists\": ",
            "[[[[[[[[[[[[[[[[[[[[[[[[[[[[[[[[[[[[[[[[[[[[[[[[[[[[[[[[[[[[[[[[[",
            "]]]]]]]]]]]]]]]]]]]]]]]]]]]]]]]]]]]]]]]]]]]]]]]]]]]]]]]]]]]]]]]]]",
            "}}
"
        )),
    ),
    (
        34,
        0,
        Example::Book("14,R,-,-,\nC,1,1,\n\n14,R,-,-,\nC,1,0,\n"),
    ),
    (37, 0, Example::Table("N,1,1,1,1,1,1,0,0,0\n")),
    (
        38,
        0,
        Example::Table(
            "N,1,1,1,0,1,1,0,0,0,0\nN,2,1,1,1,1,0,1,1,1,1\nN,3,1,1,1,1,1,1,0,0,0\nN,4,1,1,1,1,1,1,1,1,1\n\
             N,5,1,1,1,1,0,0,1,1,0\nN,6,1,1,1,0,0,0,0,1,0\nN,7,1,1,1,0,1,1,0,1,0\nN,8,1,1,1,1,1,1,0,1,0\n",
        ),
    ),
];

const FILES: [&str; 2] = ["example.schema", "example.rule"];

impl Example {
    /// The example and what comes of it.
    fn text(&self) -> String {
        match self {
            Self::Sheets {
                semantics,
                schema,
                rule,
            } => {
                let answer = told(self);
                let (schema, rule, answer) = (indented(schema), indented(rule), indented(&answer));
                format!(
                    "\nFor example, a schema\n\n{schema}\nand a rule, checked as a precondition under {semantics},\n\n{rule}\ngive\n\n{answer}"
                )
            }
            Self::Key(path) => {
                let (schema, answer) = (indented(SCHEMA), indented(&told(self)));
                format!(
                    "\nFor example, a schema\n\n{schema}\nand the key path {path}, read by a projection under service/1, give\n\n{answer}"
                )
            }
            Self::Json(text) => {
                let (text, answer) = (indented(text), indented(&told(self)));
                format!("\nFor example, a rule in JSON\n\n{text}\ngives\n\n{answer}")
            }
            Self::Book(book) => {
                let (book, answer) = (indented(book), indented(&told(self)));
                format!(
                    "\nFor example, a file\n\n{book}\ntallied as a rule book, gives\n\n{answer}"
                )
            }
            Self::Table(table) => {
                let (table, answer) = (indented(table), indented(&told(self)));
                format!("\nFor example, a name table\n\n{table}\ngives\n\n{answer}")
            }
        }
    }
}

/// What the tool says of an example.
fn told(example: &Example) -> String {
    let [schema_file, rule_file] = FILES.map(Path::new);
    match example {
        Example::Sheets {
            semantics,
            schema,
            rule,
        } => {
            let sheets = [
                (schema_file, schema.as_bytes()),
                (rule_file, rule.as_bytes()),
            ];
            let outcome = sheets_outcome(Kind::Precondition, *semantics, sheets);
            let subject = Subject::File(rule_file);
            report::text(&Palette::new(false), &Checked { subject, outcome })
        }
        Example::Key(path) => {
            let (semantics, reader) = (Semantics::Service1, Reader::Projection);
            let verdict = check_path(semantics, reader, path, SCHEMA.as_bytes());
            let fault = verdict.ok().and_then(PathVerdict::fault);
            let number = ReferenceFault::TextCount;
            format!("{path}: {}\n", fault.unwrap_or(number))
        }
        Example::Json(text) => {
            let file = Path::new("example.json");
            let outcome = match Source::read(file, text.as_bytes().to_vec()) {
                Ok(_) => return String::new(),
                Err(why) => why.into(),
            };
            let subject = Subject::File(file);
            report::text(&Palette::new(false), &Checked { subject, outcome })
        }
        Example::Book(book) => match Book::read(book.as_bytes()) {
            Ok(_) => String::new(),
            Err(error) => format!("refused {}: {error}\n", error.refusal().number()),
        },
        Example::Table(table) => match Table::read(table.as_bytes()) {
            Ok(_) => String::new(),
            Err(error) => format!("refused {}: {error}\n", error.number()),
        },
    }
}

/// How many examples there are, and the numbers of those to which the library gives a wrong answer.
pub fn replayed() -> (usize, Vec<String>) {
    let differ = |(number, detail, example): &&(u32, u32, Example)| {
        answered(example) != Some((*number, *detail))
    };
    let differing = EXAMPLES.iter().filter(differ);
    let named = differing.map(|(number, detail, _)| format!("{number}.{detail}"));
    (EXAMPLES.len(), named.collect())
}

/// The number and detail that the library gives for an example.
fn answered(example: &Example) -> Option<(u32, u32)> {
    match example {
        Example::Sheets {
            semantics,
            schema,
            rule,
        } => {
            let check = Check::new(Kind::Precondition, *semantics, "example");
            match check.run(schema.as_bytes(), rule.as_bytes()) {
                Err(refusal) => Some((refusal.number(), 0)),
                Ok(checked) => Some(match checked.verdict {
                    Verdict::Accepted { .. } => (0, 0),
                    Verdict::Defect(defect) => (defect.number.number(), defect.detail.number()),
                }),
            }
        }
        Example::Key(path) => {
            let (semantics, reader) = (Semantics::Service1, Reader::Projection);
            let verdict = check_path(semantics, reader, path, SCHEMA.as_bytes()).ok()?;
            Some((DefectNumber::Reference.number(), verdict.fault()?.number()))
        }
        Example::Json(text) => Some((rule_from_json(text).err()?.number(), 0)),
        Example::Book(book) => {
            let check = Check::new(Kind::Precondition, Semantics::Service1, "example");
            let refused = check.tally(SCHEMA.as_bytes(), book).err()?;
            Some((refused.number(), 0))
        }
        Example::Table(table) => {
            let refused = Table::load(table.as_bytes(), &mut [0; TABLE_BYTES]).err()?;
            Some((refused.number(), 0))
        }
    }
}

fn indented(text: &str) -> String {
    text.lines().map(|line| format!("    {line}\n")).collect()
}

#[cfg(test)]
#[allow(clippy::unwrap_used, clippy::panic)]
mod tests {
    use super::meaning::parse;
    use super::*;
    use entity_rules::Detail;

    fn asked(word: &str) -> Asked {
        parse(&[word.into()]).unwrap()
    }

    #[test]
    fn examples_show_what_they_are_for() {
        assert_eq!(replayed(), (EXAMPLES.len(), Vec::new()));
    }

    #[test]
    fn every_number_and_detail_is_explained() {
        for &defect in DefectNumber::ALL {
            let number = defect.number();
            assert!(example(asked(&number.to_string())).is_some());
            let details = (1..).map_while(|detail| Detail::from_numbers(defect, detail));
            for detail in details {
                let one = asked(&format!("{number}.{}", detail.number()));
                assert!(text(one).contains(detail.text()));
                assert!(example(one).is_some(), "{one:?}");
            }
        }
        for number in [0, 1, 2, 3, 4, 5, 31, 32, 33, 34, 35, 36, 37, 38, 39] {
            assert!(text(asked(&number.to_string())).lines().count() > 2);
        }
    }
}
