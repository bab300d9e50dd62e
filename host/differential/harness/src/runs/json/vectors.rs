//! `json-vectors`: a fixed list of texts and sheets, with what is made of them, that a program can replay without model and serde_json. The library is not asked.

use crate::oracle::json::{read, written, Reading};
use crate::oracle::sheet::of_rule;
use crate::readings::refusals::is_rule;
use cases::json::edges::edges;
use cases::json::generate::{case, sheet, PROFILES};
use cases::random::Random;
use model::rule_json::rule_in;
use model::trees::Sheet;
use model::{decode_rule, from_json, to_json, write_rule, Converted};
use std::collections::{BTreeMap, BTreeSet};

/// How many texts and how many sheets the list has besides the known texts and the large ones.
const GENERATED: usize = 1_000;

/// No generated input of the list is larger than this, but for some of the profiles that are about size.
const MAX_BYTES: usize = 300;

/// No known text of the list is larger than this.
const MAX_KNOWN_BYTES: usize = 10_000;

/// Profiles of large texts, and how many of each the list has.
const LARGE: [(&str, u64); 3] = [("limits", 30), ("nested", 4), ("repeated", 30)];

/// Writes the list; an error before that leaves the file as it was.
pub fn vectors(file: &str, seed: u64) -> Result<(), String> {
    let mut list = List::default();
    for case in edges().iter().filter(|case| case.text.len() <= MAX_KNOWN_BYTES) {
        list.text(&case.text)?;
    }
    let known = list.seen.len();
    for number in 0.. {
        if list.seen.len() >= known + 2 * GENERATED {
            break;
        }
        let mut random = Random::of_case(seed, number);
        let (text, sheet) = (case(&mut random).1.text, sheet(&mut random));
        if text.len() <= MAX_BYTES {
            list.text(&text)?;
        }
        if sheet.len() <= MAX_BYTES {
            list.sheet(&sheet)?;
        }
    }
    for (name, count) in LARGE {
        let make = PROFILES.iter().find(|profile| profile.0 == name).expect("a profile of that name").2;
        for number in 0..count {
            list.text(&make(&mut Random::of_case(seed, number)).text)?;
        }
    }
    for answer in [(1, 0), (1, 31), (1, 32), (2, 0), (2, 5)] {
        if !list.counts.contains_key(&answer) {
            return Err(format!("no case of the list has the answer {answer:?}"));
        }
    }
    let cases = list.seen.len();
    let bytes = [head(cases, seed).into_bytes(), list.bytes].concat();
    std::fs::write(file, bytes).map_err(|error| format!("{file} cannot be written: {error}"))?;
    println!("{:?}\n{cases} texts and sheets written to {file}", list.counts);
    Ok(())
}

fn head(cases: usize, seed: u64) -> String {
    format!(
        "# {cases} JSON texts and rule sheets with what is made of them, written by host/differential/run SOURCES json-vectors --out FILE --seed {seed};\n\
         # the same seed gives the same bytes. A sheet is that of the RuleDefinition which serde_json reads from the text, by the comparison's own writer of the\n\
         # Rust's types, and 32 is its second reading of sheets; JSON is what serde_json writes, without null members and short escapes. The model agrees with\n\
         # each; the library was not asked. Texts in which serde_json has habits of its own (docs/DIFFERENCES.md) are left out.\n\
         # A case is a line with four numbers parted by commas: the call, 1 from JSON and 2 to JSON, the byte count of the text or sheet, the answer, and the\n\
         # byte count of what is made, 0 under a refusal. Then come the text or sheet, which need not be UTF-8, what is made, and a line end. Lengths of buffers\n\
         # are not recorded: a shorter one than what is made is 33. Lines that begin with # stand here only, before the first case.\n"
    )
}

#[derive(Default)]
struct List {
    seen: BTreeSet<(u32, Vec<u8>)>,
    counts: BTreeMap<(u32, u32), u64>,
    bytes: Vec<u8>,
}

impl List {
    /// Adds a text if it is new and serde_json has no habits about it; an error is a disagreement.
    fn text(&mut self, text: &[u8]) -> Result<(), String> {
        let found = match read(text)? {
            Reading::KeptOut(_) => return Ok(()),
            Reading::None => Err(31),
            Reading::Rule(rule) => Ok(of_rule(&rule)),
        };
        // A number spelled anew.
        let own = rule_in(text).map(|rule| write_rule(&Sheet::Rule(rule)));
        if found.is_ok() && own.is_some() && found.as_ref().ok() != own.as_ref() {
            return Ok(());
        }
        let answer = found.and_then(|sheet| if is_rule(&sheet) { Ok(sheet) } else { Err(32) });
        if answer != from_json(text, usize::MAX) {
            return Err(format!("the model does not answer {answer:?} to {}", text.escape_ascii()));
        }
        self.take(1, text, &answer);
        Ok(())
    }

    /// Adds a sheet if it is new; an error is a disagreement.
    fn sheet(&mut self, sheet: &[u8]) -> Result<(), String> {
        let answer = match decode_rule(sheet).filter(|_| is_rule(sheet)) {
            Some(Sheet::Rule(rule)) => Ok(written(&rule).into_bytes()),
            _ => Err(5),
        };
        if answer != to_json(sheet, usize::MAX) {
            return Err(format!("the model does not answer {answer:?} to {}", sheet.escape_ascii()));
        }
        self.take(2, sheet, &answer);
        Ok(())
    }

    fn take(&mut self, call: u32, input: &[u8], answer: &Converted) {
        if !self.seen.insert((call, input.to_vec())) {
            return;
        }
        let (number, made) = match answer {
            Ok(made) => (0, made.as_slice()),
            Err(number) => (*number, &[][..]),
        };
        *self.counts.entry((call, number)).or_default() += 1;
        let head = format!("{call},{},{number},{}\n", input.len(), made.len());
        self.bytes.extend([head.as_bytes(), input, made, b"\n"].concat());
    }
}
