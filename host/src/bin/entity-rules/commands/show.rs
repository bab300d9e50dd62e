//! `show`: sheets as trees, an entry on each line with its number.

use crate::checked::Checked;
use crate::files::{NoSheet, Rule, Rules, SheetReader};
use crate::folders::expand;
use crate::outline::{Standing, standings};
use crate::printed::visible;
use crate::report::{self, Palette};
use crate::subject::Subject;
use crate::{REFUSED, complain};
use entity_rules::entries::{Content, Entry, read_rule, read_schema, read_table};
use entity_rules::{Name, Operator, Refusal};
use std::io::{self, IsTerminal, Write};
use std::path::PathBuf;

/// Prints every sheet as a tree, under its name where there are several.
pub fn run(files: &[PathBuf], out: &mut impl Write) -> io::Result<u8> {
    let palette = Palette::new(io::stdout().is_terminal());
    let files = match expand(files) {
        Ok(files) => files,
        Err(message) => return Ok(complain(&message)),
    };
    let sheets = Rules::read_any(files);
    let sheets = sheets.all();
    let (is_named, mut status) = (sheets.len() > 1, 0);
    for (sheet, _) in sheets {
        let (subject, shown) = match sheet {
            Ok(sheet) => (sheet.subject, text(sheet)),
            Err((file, why)) => (Subject::File(file), Err(why.clone())),
        };
        let text = match shown {
            Ok(tree) if is_named => format!("{}\n{tree}", report::subject(subject)),
            Ok(tree) => tree,
            Err(why) => {
                status = REFUSED;
                let outcome = why.into();
                report::text(&palette, &Checked { subject, outcome })
            }
        };
        out.write_all(text.as_bytes())?;
    }
    out.flush()?;
    Ok(status)
}

/// The tree of a sheet, or why it has none. A book holds rules and templates only.
pub fn text(sheet: Rule<'_>) -> Result<String, NoSheet> {
    let (read, refusal): (SheetReader, Refusal) = match (sheet.subject, sheet.bytes.first()) {
        (Subject::File(_), Some(b'H')) => (read_schema, Refusal::SchemaSheet),
        (Subject::File(_), Some(b'N')) => (read_table, Refusal::TableForm),
        _ => (read_rule, Refusal::RuleSheet),
    };
    let entries = read(sheet.bytes).map_err(|_| NoSheet::Refused {
        refusal,
        fault: sheet.fault_by(read),
    })?;
    Ok(tree(&entries))
}

fn tree(entries: &[Entry<'_>]) -> String {
    let width = entries.len().to_string().len();
    let numbered = (1..).zip(entries).zip(standings(entries));
    let line = |((place, entry), standing): ((usize, &Entry<'_>), Standing<'_>)| {
        let space = "  ".repeat(standing.depth);
        let words = format!("{}{}", role(&standing), words(entry.content));
        format!("{place:>width$}  {space}{words}\n")
    };
    numbered.map(line).collect()
}

/// What an entry is to the one that it belongs to.
fn role(standing: &Standing<'_>) -> String {
    match standing.parent {
        Some((Content::Quantifier(..), 0)) => "in ".to_owned(),
        Some((Content::Quantifier(..), _)) => "that ".to_owned(),
        Some((Content::Compare(_), 0)) => "left ".to_owned(),
        Some((Content::Compare(_), _)) => "right ".to_owned(),
        Some((Content::Head { fields, .. }, index)) if index >= fields => "argument ".to_owned(),
        Some((Content::Field { items: true, .. }, 0)) => "[]".to_owned(),
        _ => String::new(),
    }
}

/// What an entry says, without what belongs to it.
fn words(content: Content<'_>) -> String {
    match content {
        Content::Head {
            open, arguments, ..
        } => {
            let mark = |open| if open { "open" } else { "closed" };
            let arguments = arguments.map_or("no arguments".to_owned(), |(open, _)| {
                format!("arguments {}", mark(open))
            });
            format!("schema, record {}, {arguments}", mark(open))
        }
        Content::Field {
            kind,
            open,
            name,
            tag,
            ..
        } => {
            let open = if open { ", open" } else { "" };
            let tag = tag.map_or(String::new(), |tag| format!(", tag {tag:?}"));
            format!("{}: {kind}{open}{tag}", visible(name))
        }
        Content::Rule { name, message } => {
            let quoted = |what: &str, text: Option<&str>| {
                text.map_or(String::new(), |text| format!("{what} {text:?}"))
            };
            format!("rule{}{}", quoted("", name), quoted(", message", message))
        }
        Content::Literal(truth) => truth.to_string(),
        Content::Condition(operator @ (Operator::All | Operator::Any), count) => {
            format!("{operator} of {count}")
        }
        Content::Condition(operator, _) => operator.to_string(),
        Content::Compare(op) => format!("compare {op}"),
        Content::Quantifier(operator, bind) => format!("{operator} {}", visible(bind)),
        Content::String(text) => format!("{text:?}"),
        Content::Number(text) => text.to_owned(),
        Content::Key(key) => format!("{key:?}:"),
        Content::Row { kind, marks } => {
            let shown = Name::ALL.iter().zip(marks).filter(|(_, shown)| *shown);
            let names: Vec<String> = shown.map(|(name, _)| format!("${name}")).collect();
            format!("{kind} reads {}", names.join(", "))
        }
        other => other.to_string(),
    }
}

#[cfg(test)]
#[allow(clippy::unwrap_used)]
mod tests {
    use super::*;

    #[test]
    fn a_schema_is_shown_with_its_elements() {
        let sheet = b"H,0,2,1,1\nF,6,0,1,0,1,-,a\nF,7,1,0,1,0,-,\nF,1,0,0,0,1,-,b\nF,11,0,0,0,1,1,ut\nF,2,0,0,0,1,-,c\n";
        let expected = "\
1  schema, record closed, arguments open
2    a: array
3      []: object, open
4        b: string
5    u: union, tag \"t\"
6    argument c: integer
";
        assert_eq!(tree(&read_schema(sheet).unwrap()), expected);
    }

    #[test]
    fn a_rule_is_shown_with_its_operands() {
        let sheet = b"R,1,1,nm\nC,2,2,\nC,18,3,\nV,5,3,$id\nV,7,1,\nK,1,k\nV,6,1,\nV,4,1,7\nC,20,1,b\nV,5,9,$fields.a\nC,4,0,\nC,1,0,\n";
        let expected = " 1  rule \"n\", message \"m\"
 2    all of 2
 3      compare lt
 4        left \"$id\"
 5        right object of 1
 6          \"k\":
 7            array of 1
 8              7
 9      for_all b
10        in \"$fields.a\"
11        that not
12          false
";
        assert_eq!(tree(&read_rule(sheet).unwrap()), expected);
    }

    #[test]
    fn nothing_steers_the_terminal() {
        let sheet = b"T\nV,5,4,\x1b[0m\n";
        assert_eq!(
            tree(&read_rule(sheet).unwrap()),
            "1  template\n2    \"\\u{1b}[0m\"\n"
        );
    }
}
