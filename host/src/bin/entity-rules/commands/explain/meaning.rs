//! The numbers of an answer in words.

use entity_rules::{DefectNumber, Detail, Refusal};

/// A number of an answer, and a detail where one is asked for.
#[derive(Clone, Copy, Debug, PartialEq, Eq)]
pub struct Asked {
    pub number: u32,
    pub detail: Option<u32>,
}

/// The numbers that can be asked for.
const EXPECTED: &str = "explain: expected a number of an answer, 0 to 5, 11 to 22, 31 to 39, or one of these with a detail, as 18.3";

/// Reads `18` or `18.3`.
pub fn parse(words: &[std::ffi::OsString]) -> Result<Asked, String> {
    let [word] = words else {
        return Err(EXPECTED.to_owned());
    };
    let word = word.to_str().ok_or(EXPECTED)?;
    let (number, detail) = word
        .split_once('.')
        .map_or((word, None), |(number, detail)| (number, Some(detail)));
    let numeral = |text: &str| text.parse::<u32>().map_err(|_| EXPECTED.to_owned());
    let asked = Asked {
        number: numeral(number)?,
        detail: detail.map(numeral).transpose()?,
    };
    match asked.headline() {
        Some(_) => Ok(asked),
        None => Err(EXPECTED.to_owned()),
    }
}

impl Asked {
    /// The number, its word, and what it says; none where there is no such number or detail.
    pub fn headline(self) -> Option<String> {
        let Self { number, detail } = self;
        match (DefectNumber::from_number(number), detail) {
            (Some(defect), None) => Some(format!("{number} ({}): {defect}", defect.word())),
            (Some(defect), Some(shown)) => {
                let detail = Detail::from_numbers(defect, shown).filter(|_| shown > 0)?;
                let word = defect.word();
                Some(format!("{number}.{shown} ({word}): {defect}: {detail}"))
            }
            (None, None) if number == 0 => Some("0: accepted, every check passed".to_owned()),
            (None, None) => {
                let refusal = refusal(number)?;
                Some(format!("{number} ({}): refused, {refusal}", refusal.word()))
            }
            (None, Some(_)) => None,
        }
    }
}

fn refusal(number: u32) -> Option<Refusal> {
    let all = [
        Refusal::Setting,
        Refusal::Label,
        Refusal::Width,
        Refusal::SchemaSheet,
        Refusal::RuleSheet,
        Refusal::JsonForm,
        Refusal::SheetLimit,
        Refusal::Output,
        Refusal::BookForm,
        Refusal::Marks,
        Refusal::Openings,
        Refusal::TableForm,
        Refusal::TableMark,
        Refusal::Message,
    ];
    all.into_iter().find(|refusal| refusal.number() == number)
}

/// A line for each detail of a number.
pub fn details(number: u32) -> String {
    let Some(defect) = DefectNumber::from_number(number) else {
        return String::new();
    };
    let details = (1..).map_while(|detail| Detail::from_numbers(defect, detail));
    details
        .filter(|detail| *detail != Detail::None)
        .map(|detail| format!("  {number}.{:<4}{detail}\n", detail.number()))
        .collect()
}

/// What it comes from, or what mends it.
pub fn mend(number: u32) -> &'static str {
    match number {
        0 => "The passed count says how many checks there were.",
        1 => "Kinds go from 1 to 8, semantics from 1 to 4, readers are 1 and 2.",
        2 => "A label has at most 256 bytes, a key path 512; both are UTF-8.",
        3 => {
            "A call is lent a path buffer of 32,768 bytes and a result of 28, for a check with marks 32, with a message 40, for a tally 144, for a wall sheet 16, for openings 12; only a program that calls the library can get this."
        }
        4 => "The tool names the line, the entry and the byte, and what was expected there.",
        5 => {
            "The tool names the line, the entry and the byte, and what was expected there. rulecheck_rule also answers 5 to a template, and rulecheck_template to a rule."
        }
        11 => "Give the rule a name that is not all white space, or none.",
        12 => "Give the rule a message that is not all white space, or none.",
        13 => "Conditions may nest 32 deep; `all` and `any` take many side by side.",
        14 => "A number must be below 2^1024 - 2^970 in magnitude, so that it fits a binary64.",
        15 => {
            "`compare`, `truthy`, `for_all` and `for_any` need service/1, service/2 or service/3."
        }
        16 => "Give it a condition, or put a literal in its place.",
        17 => {
            "Compare something that is neither an array nor an object, such as one of its members."
        }
        18 => {
            "Read a name that the kind may read, followed by what the schema declares. `entity-rules table` prints which kind may read which name."
        }
        19 => "Both operands must be strings; a reference is one.",
        20 => {
            "An instant is YYYY-MM-DD or YYYY-MM-DDTHH:MM:SS, with up to 9 digits of a second and a Z if wanted."
        }
        21 => "A bind is a name that is not all white space and has no dot.",
        22 => {
            "Name an array or a map of `$fields`, `$old_fields` or `$args`, or something below a bind."
        }
        31 => {
            "A rule in JSON is an object with `assert`, and perhaps `name` and `message`; a condition is `true`, `false` or an object with one operator. The tool names the line and the column, and what is wrong there."
        }
        32 => {
            "A sheet has at most 30,000 bytes and 2,048 entries, a text in it 512 bytes; conditions nest 256 deep, values 64."
        }
        33 => {
            "A wall sheet is lent 4,860 bytes for each page, and the sheet or the JSON of a rule as many as it has; only a program that calls the library can get this."
        }
        34 => {
            "A book has sheets and nothing between them, each with its length in bytes and a comma before it; `entity-rules book` writes one."
        }
        35 => {
            "A check is lent a list of 8,192 bytes for its marks; only a program that calls the library can get this."
        }
        36 => {
            "A call for openings is lent a list of 4,100 bytes for the marks; only a program that calls the library can get this."
        }
        37 => {
            "A name table is eight rows of 22 bytes; `entity-rules table` prints the stock table."
        }
        39 => {
            "It stands beside a defect, with the length that the buffer for its message must have; only a program that calls the library can get this."
        }
        _ => {
            "Every kind reads $id, $entity and $version, and $old_fields only where it reads $fields."
        }
    }
}

#[cfg(test)]
mod tests {
    use super::*;

    fn asked(word: &str) -> Result<Asked, String> {
        parse(&[word.into()])
    }

    #[test]
    fn other_numbers_are_not() {
        for word in [
            "", "6", "18.0", "18.14", "13.1", "4.1", "18.", ".3", "x", "0.0", "99",
        ] {
            assert_eq!(asked(word), Err(EXPECTED.to_owned()), "{word}");
        }
        assert!(parse(&[]).is_err());
        assert!(parse(&["18".into(), "19".into()]).is_err());
    }
}
