//! Two schemas in words.

use super::{Compared, Comparison};
use crate::members::{Growth, Member};
use crate::printed::{name, visible};
use crate::report::{Colour, Palette, not_read, refused_text};
use std::path::Path;

/// What is printed for two schemas.
pub fn text(palette: &Palette, compared: &Compared) -> String {
    let [old, new] = [compared.old, compared.new].map(|file| name(file.as_os_str()));
    match &compared.comparison {
        Comparison::Widening { only_marks, grown } => {
            let told = match (only_marks, grown.is_empty()) {
                (true, true) => "nothing differs",
                (true, false) => "nothing differs but open marks",
                (false, _) => "what was accepted stays accepted",
            };
            let word = palette.paint(Colour::Green, "widening");
            let first = format!("{new}: {word} of {old}: {told}\n");
            let rows = grown.iter().map(|growth| row(growth, compared.old));
            std::iter::once(first).chain(rows).collect()
        }
        Comparison::Breach {
            breach,
            old: one,
            new: two,
            hint,
        } => {
            let reason = breach.reason;
            let word = palette.paint(Colour::Red, "not a widening");
            let mut text = format!(
                "{new}: {word} of {old}, reason {}: {reason}\n",
                reason.number()
            );
            text.push_str(&side("old", compared.old, one.as_ref()));
            text.push_str(&side("new", compared.new, two.as_ref()));
            if let Some(hint) = hint {
                text.push_str(&format!("  hint    {hint}\n"));
            }
            text
        }
        Comparison::Refused { refusal, fault } => {
            refused_text(palette, &new, *refusal, fault.as_ref())
        }
        Comparison::Unreadable(unreadable) => {
            let word = palette.paint(Colour::Yellow, "unreadable");
            let file = name(unreadable.file.as_os_str());
            format!("{file}: {word}: {}\n", not_read(unreadable))
        }
    }
}

/// One thing that has grown.
fn row(growth: &Growth, old_file: &Path) -> String {
    match growth {
        Growth::Opened { old, new } => {
            let file = name(old_file.as_os_str());
            let before = format!("{file} line {}", old.line);
            format!("  opened  {}, closed in {before}\n", spot(new))
        }
        Growth::Added { new, below } => {
            let below = match below {
                0 => String::new(),
                1 => ", with 1 entry below".to_owned(),
                below => format!(", with {below} entries below"),
            };
            format!("  added   {}: {}{below}\n", spot(new), visible(&new.text))
        }
        Growth::Arguments { new } => {
            format!("  added   {}: arguments, {}\n", spot(new), new.text)
        }
    }
}

/// An entry of the new schema.
fn spot(member: &Member) -> String {
    let path = visible(&member.path);
    format!("line {}, entry {}, {path}", member.line, member.place)
}

/// What one of the two schemas has where the other has a breach.
fn side(word: &str, file: &Path, member: Option<&Member>) -> String {
    match member {
        None => format!("  {word:<8}none\n"),
        Some(member) => {
            let file = name(file.as_os_str());
            let Member { line, place, .. } = member;
            let [path, text] = [&member.path, &member.text].map(|text| visible(text));
            format!("  {word:<8}{file}:{line}: entry {place}, {path}: {text}\n")
        }
    }
}
