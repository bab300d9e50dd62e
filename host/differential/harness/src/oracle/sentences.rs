//! The one table from the Rust's messages to number and detail.
//!
//! Names in a message may hold pieces of other messages. So every row is a whole sentence: either constant, or with a constant end that no value
//! can imitate, or written again from the parts of a reference of the rule and then compared as a whole.

use crate::oracle::verdict::Quoted;
use entity_core::validation::entry::readable;
use model::trees::{Condition, Data, Operator, Sheet, Value};

/// What a message says: number, detail, and the part of the rule that it quotes.
pub struct Found {
    pub number: u32,
    pub detail: u32,
    pub quoted: Quoted,
}

/// Sentences without a name in them.
const FIXED: [(&str, u32); 4] = [
    ("rule name cannot be empty", 11),
    ("rule message cannot be empty", 12),
    ("'all' must contain at least one condition", 16),
    ("'any' must contain at least one condition", 16),
];

/// Ends of the sentences that begin with a value as JSON.
const LITERAL_END: &str = " is outside the source observation domain, so the comparison would be unevaluable at every evaluation";
const AFFIX_END: &str = " is not a string, so the rule would be false at every evaluation; quote it if it is meant as text";
const INSTANT_END: &str = ", so the comparison would be unobservable at every evaluation; an operand of 'before'/'after' is either a '$' \
                           reference or a literal instant written `YYYY-MM-DD` or `YYYY-MM-DDTHH:MM:SS[.fff][Z]`, where a space may stand in \
                           for the `T` and an explicit offset is not read";
const ESCAPED_END: &str = "', which is not an instant this kernel reads";
const UNREAD_END: &str = " is not an instant this kernel reads";

/// End of the sentence that begins with the address of a text's length.
const TEXT_COUNT_END: &str =
    "' reads the length of a text, and a projection key reads object members only, so the read model would file no \
                              instance under it";

/// The sentence of an empty path or segment.
const EMPTY: &str = "the path is empty";

/// The kinds of a field as a message spells them.
const KINDS: [&str; 12] = ["string", "integer", "number", "boolean", "enum", "array", "object", "json", "ref", "map", "union", "binary64"];

/// The roots whose paths are walked, and what a message calls their members.
const ROOTS: [(&str, &str); 3] = [("$fields.", "field"), ("$old_fields.", "field"), ("$args.", "argument")];

/// The table for one rule: its sentences are written from the strings that begin with `$` there.
pub struct Table<'a> {
    kind: u64,
    strings: Vec<&'a str>,
}

impl<'a> Table<'a> {
    pub fn new(kind: u64, sheet: &'a Sheet) -> Self {
        let mut strings = Vec::new();
        match sheet {
            Sheet::Rule(rule) => of_condition(&rule.condition, &mut strings),
            Sheet::Template(value) => of_value(value, &mut strings),
        }
        strings.sort_unstable();
        strings.dedup();
        Self { kind, strings }
    }

    /// A message of families 1 and 8.
    pub fn of_rule(&self, message: &str) -> Result<Found, String> {
        if let Some((_, number)) = FIXED.iter().find(|(sentence, _)| *sentence == message) {
            return Ok(Found { number: *number, detail: 0, quoted: Quoted::Nothing });
        }
        if let Some(text) = message.strip_suffix(LITERAL_END) {
            return Ok(Found { number: 14, detail: 0, quoted: Quoted::Json(text.to_owned()) });
        }
        if let Some(text) = message.strip_suffix(AFFIX_END) {
            return Ok(Found { number: 19, detail: 0, quoted: Quoted::Json(text.to_owned()) });
        }
        match message.strip_suffix(INSTANT_END) {
            Some(sentence) => self.of_instant(sentence),
            None => self.of_reference(message),
        }
    }

    /// The JSON of a value never ends like the escaped form, so the two ends tell them apart.
    fn of_instant(&self, sentence: &str) -> Result<Found, String> {
        if sentence.ends_with(ESCAPED_END) {
            let is_written = |text: &&&str| {
                let json = serde_json::Value::String((**text).to_owned());
                format!("{json} escapes to the literal '{}{ESCAPED_END}", &text[1..]) == sentence
            };
            let text = self.strings.iter().find(is_written).ok_or_else(|| unknown(sentence))?;
            return Ok(Found { number: 20, detail: 1, quoted: Quoted::Text((*text).to_owned()) });
        }
        let json = sentence.strip_suffix(UNREAD_END).ok_or_else(|| unknown(sentence))?;
        Ok(Found { number: 20, detail: 2, quoted: Quoted::Json(json.to_owned()) })
    }

    /// A message about a reference, of families 1, 2 and 8. Exactly one string of the rule must explain it.
    pub fn of_reference(&self, message: &str) -> Result<Found, String> {
        let mut explained = self.strings.iter().filter_map(|text| Some((text, reference_detail(self.kind, text, message)?)));
        let (text, detail) = explained.next().ok_or_else(|| unknown(message))?;
        if explained.next().is_some() {
            return Err(format!("two references explain the message: {message}"));
        }
        Ok(Found { number: 18, detail, quoted: Quoted::Text((*text).to_owned()) })
    }
}

fn unknown(message: &str) -> String {
    format!("no sentence of the table is the message: {message}")
}

fn of_condition<'a>(condition: &'a Condition, strings: &mut Vec<&'a str>) {
    match &condition.operator {
        Operator::Literal(_) => {}
        Operator::All(children) | Operator::Any(children) => children.iter().for_each(|child| of_condition(child, strings)),
        Operator::Not(child) => of_condition(child, strings),
        Operator::Exists(value) | Operator::Truthy(value) => of_value(value, strings),
        Operator::Pair(_, sides) | Operator::Compare(_, sides) => sides.iter().for_each(|side| of_value(side, strings)),
        Operator::Quantifier { over, body, .. } => {
            of_value(over, strings);
            of_condition(body, strings);
        }
    }
}

fn of_value<'a>(value: &'a Value, strings: &mut Vec<&'a str>) {
    match &value.data {
        Data::String(text) if text.starts_with('$') => strings.push(text),
        Data::Array(values) => values.iter().for_each(|member| of_value(member, strings)),
        Data::Object(members) => members.iter().for_each(|(_, member)| of_value(member, strings)),
        _ => {}
    }
}

/// The detail of 18, if the message is one that this reference can get.
fn reference_detail(kind: u64, reference: &str, message: &str) -> Option<u32> {
    let rest = message.strip_prefix('\'')?.strip_prefix(reference)?.strip_prefix('\'')?;
    if let Some(sentence) = rest.strip_prefix(" cannot resolve: ") {
        // A walk below a root is spelled from the first name on, one below a binder from its `$`.
        let below_root = ROOTS.iter().find_map(|(prefix, noun)| Some((reference.strip_prefix(prefix)?, *noun)));
        return below_root.and_then(|(path, noun)| path_detail(path, noun, sentence)).or_else(|| walk_detail(reference, sentence));
    }
    let (what, allowed) = readable(kind);
    match rest.strip_suffix(&format!("; {what} may read {allowed}"))? {
        " is not available here" => Some(11),
        " is not a reference available here" => Some(12),
        _ => None,
    }
}

/// The detail of 18 for a path of the record: its sentence comes alone, without the reference before it.
pub fn of_key(path: &str, sentence: &str) -> Result<u32, String> {
    path_detail(path, "field", sentence).ok_or_else(|| unknown(sentence))
}

/// The detail for a path below a root whose members are called by that noun.
fn path_detail(path: &str, noun: &str, sentence: &str) -> Option<u32> {
    let root = path.split('.').next()?;
    if sentence == format!("unknown {noun} '{root}'") {
        return Some(2);
    }
    walk_detail(path, sentence)
}

/// One step of a walk: what was walked before, the segment, and what follows it.
struct Step<'a> {
    walked: &'a str,
    segment: &'a str,
    rest: Option<&'a str>,
}

/// Every step of a path, from its first dot on.
fn steps(path: &str) -> impl Iterator<Item = Step<'_>> {
    path.match_indices('.').map(move |(dot, _)| {
        let tail = &path[dot + 1..];
        let (segment, rest) = tail.split_once('.').map_or((tail, None), |(segment, rest)| (segment, Some(rest)));
        Step { walked: &path[..dot], segment, rest }
    })
}

fn walk_detail(path: &str, sentence: &str) -> Option<u32> {
    if sentence == EMPTY {
        return Some(1);
    }
    steps(path).find_map(|step| step_detail(&step, sentence))
}

fn step_detail(step: &Step<'_>, sentence: &str) -> Option<u32> {
    let Step { walked, segment, .. } = step;
    let rest = sentence.strip_prefix('\'')?.strip_prefix(walked)?;
    if let Some(rest) = rest.strip_prefix('.') {
        return address_detail(rest.strip_prefix(segment)?, step);
    }
    let rest = rest.strip_prefix("' ")?;
    if rest == format!("declares no property '{segment}'") {
        return Some(3);
    }
    if rest == format!("is an array field, so '{segment}' resolves to nothing; an array addresses `count` or an element index") {
        return Some(4);
    }
    kind_detail(rest.strip_prefix("is a ")?, segment)
}

/// A sentence that goes on after the address: a text's length, or something after a count or after a tag.
fn address_detail(sentence: &str, step: &Step<'_>) -> Option<u32> {
    if sentence == TEXT_COUNT_END {
        return (step.segment == "count").then_some(13);
    }
    let rest = step.rest?;
    if sentence == format!("' is a count, so '{rest}' resolves to nothing") {
        return Some(6);
    }
    (sentence == format!("' is the union's tag, so '{rest}' resolves to nothing")).then_some(7)
}

/// A sentence that goes on with the kind of the field.
fn kind_detail(sentence: &str, segment: &str) -> Option<u32> {
    let of_kind = |kind: &&'static str| Some((*kind, sentence.strip_prefix(*kind)?.strip_prefix(" field, so '")?));
    let (kind, after) = KINDS.iter().find_map(of_kind)?;
    match after.strip_prefix(segment)?.strip_prefix("' resolves to nothing")? {
        "" => Some(10),
        "; a map's keys are not addressable and only `count` reads it" => (kind == "map").then_some(5),
        "; `count` reads a text, an array or a map" => (segment == "count").then_some(9),
        carried => (kind == "union" && is_union_end(carried)).then_some(8),
    }
}

/// The tag may be any text; the content key follows from it.
fn is_union_end(sentence: &str) -> bool {
    let tag_and_content = || sentence.strip_prefix("; it carries '")?.strip_suffix('\'')?.rsplit_once("' and '");
    tag_and_content().is_some_and(|(tag, content)| content == if tag == "value" { "content" } else { "value" })
}

/// The detail of 22. `over` is the text of `in`, or JSON where it is not a string.
pub fn of_collection(over: &str, sentence: &str) -> Result<u32, String> {
    if sentence == "`in` is a reference to an array or map field" {
        return Ok(1);
    }
    if sentence == format!("'{over}' is not a reference to a collection") {
        return Ok(5);
    }
    if KINDS.iter().any(|kind| sentence == format!("it is a {kind} field, and a quantifier walks an array or a map")) {
        return Ok(4);
    }
    over.split('.').find_map(|segment| member_detail(segment, sentence)).ok_or_else(|| unknown(sentence))
}

fn member_detail(segment: &str, sentence: &str) -> Option<u32> {
    if sentence == format!("nothing declares a property '{segment}'") {
        return Some(2);
    }
    KINDS.iter().any(|kind| sentence == format!("a {kind} field has no member '{segment}'")).then_some(3)
}

#[cfg(test)]
mod tests {
    use super::{is_union_end, of_collection, of_key, reference_detail, TEXT_COUNT_END};

    /// A reference whose name reads like the end of another message.
    const TRICKY: &str = "$fields.a' cannot resolve: the path is empty";

    #[test]
    fn a_name_that_holds_a_message_is_not_taken_for_it() {
        let message = format!("'{TRICKY}' cannot resolve: unknown field 'a' cannot resolve: the path is empty'");
        assert_eq!(reference_detail(1, TRICKY, &message), Some(2));
        assert_eq!(reference_detail(1, "$fields.a", &message), None);
    }

    #[test]
    fn a_key_that_holds_a_message_is_not_taken_for_it() {
        let end = TEXT_COUNT_END;
        let key = "a' reads the length of a text.count.x";
        assert_eq!(of_key(key, &format!("'a' reads the length of a text.count{end}")), Ok(13));
        assert_eq!(of_key("a.b.count", &format!("'a.b.count{end}")), Ok(13));
        assert!(of_key("a.b.size", &format!("'a.b.size{end}")).is_err());
        assert_eq!(of_key("unknown field 'a'", "unknown field 'unknown field 'a''"), Ok(2));
        assert!(of_key("a", "'$fields.a' cannot resolve: unknown field 'a'").is_err());
    }

    #[test]
    fn a_tag_that_holds_a_message_is_not_taken_for_it() {
        assert!(is_union_end("; it carries '' and 'value' and 'value'"));
        assert!(!is_union_end("; it carries 'value' and 'value'"));
    }

    #[test]
    fn sentences_that_cannot_occur_are_not_in_the_table() {
        assert!(of_collection("$fields.a", "'$fields.a' names nothing the schema declares").is_err());
        assert!(of_collection("$args.a", "'$args.a' is not available here").is_err());
    }
}
