//! `to-sheet` and `to-json`: a rule in JSON as its sheet, and the other way round.

use crate::checked::Checked;
use crate::complain;
use crate::files::{NoSheet, Rule, Rules, Sheet, read_sheet};
use crate::folders::expand;
use crate::report::{self, Palette};
use crate::source::Source;
use crate::subject::Subject;
use entity_rules::rule_to_json;
use std::io::{self, Write};
use std::path::{Path, PathBuf};

/// Writes the sheet of a rule in JSON, or says why there is none.
pub fn to_sheet(file: &Path, out: &mut impl Write) -> io::Result<u8> {
    let text = read_sheet(file, Sheet::Json).map_err(NoSheet::from);
    match text.and_then(|text| Source::read(file, text)) {
        Ok(source) => {
            out.write_all(source.sheet())?;
            out.flush()?;
            Ok(0)
        }
        Err(why) => Ok(told(Subject::File(file), why)),
    }
}

/// Writes each rule as a line of JSON, up to one that has none.
pub fn to_json(files: &[PathBuf], out: &mut impl Write) -> io::Result<u8> {
    let files = match expand(files) {
        Ok(files) => files,
        Err(message) => return Ok(complain(&message)),
    };
    for (rule, _) in Rules::read(files).all() {
        let (subject, text) = match rule {
            Ok(rule) => (rule.subject, json_of(rule)),
            Err((file, why)) => (Subject::File(file), Err(why.clone())),
        };
        match text {
            Ok(text) => writeln!(out, "{text}")?,
            Err(why) => return Ok(told(subject, why)),
        }
    }
    out.flush()?;
    Ok(0)
}

/// The JSON of a rule, or why there is none.
fn json_of(rule: Rule<'_>) -> Result<String, NoSheet> {
    rule_to_json(rule.bytes).map_err(|refusal| NoSheet::Refused {
        refusal,
        fault: rule.fault(),
    })
}

/// Says on standard error why something is not converted.
fn told(subject: Subject<'_>, why: NoSheet) -> u8 {
    let outcome = why.into();
    let text = report::text(&Palette::new(false), &Checked { subject, outcome });
    complain(text.trim_end())
}
