//! Two schemas as JSON, one object on one line.

use super::{Compared, Comparison};
use crate::json::{refused_members, unreadable_members};
use crate::members::{Growth, Member};
use crate::object::Object;

/// The line for two schemas.
pub fn line(compared: &Compared) -> String {
    let mut object = Object::new();
    object.given("old", compared.old.as_os_str());
    object.given("new", compared.new.as_os_str());
    match &compared.comparison {
        Comparison::Widening { only_marks, grown } => {
            object.text("verdict", "widening");
            object.number("number", 0);
            object.number("answer", if *only_marks { 1 } else { 2 });
            object.list("grown", grown.iter().map(growth));
        }
        Comparison::Breach {
            breach,
            old,
            new,
            hint,
        } => {
            object.text("verdict", "none");
            object.number("number", 0);
            object.number("answer", 3);
            object.number("reason", breach.reason.number());
            object.text("word", breach.reason.name());
            object.text("explanation", breach.reason.text());
            object.number("old_place", breach.old_entry.unwrap_or(0));
            side(
                &mut object,
                ["old_line", "old_path", "old_entry"],
                old.as_ref(),
            );
            object.number("new_place", breach.new_entry.unwrap_or(0));
            side(
                &mut object,
                ["new_line", "new_path", "new_entry"],
                new.as_ref(),
            );
            if let Some(hint) = hint {
                object.text("hint", hint);
            }
        }
        Comparison::Refused { refusal, fault } => {
            refused_members(&mut object, *refusal, fault.as_ref());
        }
        Comparison::Unreadable(unreadable) => unreadable_members(&mut object, unreadable),
    }
    object.line()
}

fn side(object: &mut Object, keys: [&str; 3], member: Option<&Member>) {
    let [line, path, entry] = keys;
    if let Some(member) = member {
        object.number(line, member.line);
        object.text(path, &member.path);
        object.text(entry, &member.text);
    }
}

fn growth(growth: &Growth) -> Object {
    let (what, new, old) = match growth {
        Growth::Opened { old, new } => ("opened", new, Some(old)),
        Growth::Added { new, .. } => ("added", new, None),
        Growth::Arguments { new } => ("arguments", new, None),
    };
    let mut object = Object::new();
    object.text("what", what);
    object.number("place", new.place);
    side(&mut object, ["line", "path", "entry"], Some(new));
    if let Some(old) = old {
        object.number("old_place", old.place);
        object.number("old_line", old.line);
    }
    object
}
