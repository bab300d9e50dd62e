//! What helps to mend a defect, where its own words do not say it.

use crate::blame::Readable;
use entity_rules::{Detail, ReferenceFault, Semantics};

/// What an instant looks like.
pub const INSTANT: &str = "an instant is YYYY-MM-DD or YYYY-MM-DDTHH:MM:SS, the latter with up to 9 digits \
                       after a dot and a Z if wanted; it has no offset";

/// The hint for a defect of that detail, whose entry is a string of that text.
pub fn hint(readable: &Readable<'_>, detail: Detail, text: &str) -> Option<String> {
    match detail {
        Detail::Reference(ReferenceFault::RootNotAvailable | ReferenceFault::NoSuchReference) => {
            names(readable, text)
        }
        Detail::Reference(fault) => no_member(readable.semantics, fault),
        Detail::Instant(_) => Some(INSTANT.to_owned()),
        _ => None,
    }
}

/// The hint for a path that goes on where kernel/1, other than service, has no members.
pub fn no_member(semantics: Semantics, fault: ReferenceFault) -> Option<String> {
    let is_kernels = fault == ReferenceFault::NoMember && !semantics.is_service();
    is_kernels.then(|| "under kernel/1 only objects and json fields have members".to_owned())
}

/// The names that may be read, where another is.
fn names(readable: &Readable<'_>, text: &str) -> Option<String> {
    let kind = readable.kind;
    let names = readable.table.names(kind);
    let name = text.split('.').next().unwrap_or_default();
    let is_known = names
        .iter()
        .any(|known| name.strip_prefix('$') == Some(known.text()));
    let names: Vec<String> = names.iter().map(|name| format!("${name}")).collect();
    (!is_known).then(|| {
        format!(
            "the kind {kind} may read {}, and binds in their bodies",
            names.join(", ")
        )
    })
}

#[cfg(test)]
mod tests {
    use super::*;
    use entity_rules::{Kind, Name, Table};

    fn hinted(table: &Table, fault: ReferenceFault, text: &str) -> Option<String> {
        let readable = Readable {
            kind: Kind::CreateSelector,
            semantics: Semantics::Service1,
            table,
        };
        hint(&readable, Detail::Reference(fault), text)
    }

    #[test]
    fn hints_go_by_the_table() {
        let kind = Kind::CreateSelector;
        let table = Table::stock()
            .show(kind, Name::State)
            .hide(kind, Name::Args);
        let hinted = |text| hinted(&table, ReferenceFault::NoSuchReference, text);
        let names = "the kind create_selector may read $id, $entity, $version, $state, and binds in their bodies";
        assert_eq!(hinted("$args").as_deref(), Some(names));
        assert_eq!(hinted("$state.a"), None);
    }

    #[test]
    fn hints_say_what_may_be_read() {
        let names = "the kind create_selector may read $id, $entity, $version, $args, and binds in their bodies";
        for (fault, text, expected) in [
            (ReferenceFault::RootNotAvailable, "$fields.a", Some(names)),
            (ReferenceFault::RootNotAvailable, "$args.a", None),
            (ReferenceFault::NoSuchReference, "$fields", Some(names)),
            (ReferenceFault::NoSuchReference, "$", Some(names)),
            (ReferenceFault::NoSuchReference, "$id.a", None),
            (ReferenceFault::NoMember, "$args.a.b", None),
            (ReferenceFault::NoCount, "$args.a.count", None),
        ] {
            let hint = hinted(&Table::stock(), fault, text);
            assert_eq!(hint.as_deref(), expected, "{text}");
        }
    }
}
