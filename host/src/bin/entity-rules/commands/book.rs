//! `book`: the rule book of the sheets in files.

use crate::checked::Checked;
use crate::complain;
use crate::files::Rules;
use crate::folders::expand;
use crate::printed;
use crate::report::{self, Palette};
use crate::subject::Subject;
use entity_rules::Book;
use std::io::{self, IsTerminal, Write};
use std::path::PathBuf;

/// Writes the book of the sheets in these files, or nothing if one of them cannot be read. A sheet that is not well formed is noted.
pub fn run(files: &[PathBuf], out: &mut impl Write) -> io::Result<u8> {
    if io::stdout().is_terminal() {
        let expected =
            "expected standard output to be a file, as in `entity-rules book RULE.. > BOOK`";
        return Ok(complain(&format!("book: {expected}")));
    }
    let files = match expand(files) {
        Ok(files) => files,
        Err(message) => return Ok(complain(&message)),
    };
    let mut book = Book::new();
    for (rule, _) in Rules::read_whole(files).all() {
        match rule {
            Ok(rule) => {
                book.extend([rule.bytes]);
                if let Some(fault) = rule.fault() {
                    let place = printed::name(fault.file.as_os_str());
                    let note = format!(
                        "{place}:{}: written, though it is not a rule sheet",
                        fault.at.line
                    );
                    complain(&format!("{note}: {}", fault.told));
                }
            }
            Err((file, why)) => {
                let (subject, outcome) = (Subject::File(file), why.clone().into());
                let text = report::text(&Palette::new(false), &Checked { subject, outcome });
                return Ok(complain(text.trim_end()));
            }
        }
    }
    out.write_all(book.bytes())?;
    out.flush()?;
    Ok(0)
}
