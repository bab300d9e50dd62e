//! Names that are nearly right.

#[path = "../../near.rs"]
mod nearest;

pub(crate) use nearest::nearest;

use entity_rules::UnknownName;

/// After a word that is not known: which of these names was likely meant, or nothing.
pub fn meant<'a>(given: &str, names: impl IntoIterator<Item = &'a str>) -> String {
    nearest(given, names).map_or_else(String::new, |name| format!("; did you mean `{name}`?"))
}

/// That a name is not known, and which one was likely meant.
pub fn unknown(error: &UnknownName) -> String {
    format!(
        "{error}{}",
        meant(&error.given, error.known.iter().copied())
    )
}

#[cfg(test)]
mod tests {
    use super::*;
    use entity_rules::Semantics;

    #[test]
    fn unknown_names_come_with_a_near_one() {
        let told = |given: &str| given.parse::<Semantics>().map_err(|error| unknown(&error));
        let all = "expected one of kernel/1, service/1, service/2, service/3";
        let near =
            format!("\"sevice/1\" is not a known semantics; {all}; did you mean `service/1`?");
        assert_eq!(told("sevice/1"), Err(near));
        assert_eq!(
            told("rule"),
            Err(format!("\"rule\" is not a known semantics; {all}"))
        );
    }
}
