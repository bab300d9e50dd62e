//! `instants-vectors`: a fixed list of texts and their fields that a program can replay without model and Rust.

use crate::readings::instants::Fields;
use crate::runs::instants::read;
use cases::instants::{known, text};
use cases::random::Random;
use std::collections::BTreeSet;

/// How many texts the list has besides the known ones.
const GENERATED: usize = 1_000;

/// Writes the list; an error before that leaves the file as it was. The library is not asked.
pub fn vectors(file: &str, seed: u64) -> Result<(), String> {
    let (mut seen, mut bytes, mut instants) = (BTreeSet::new(), Vec::new(), 0);
    let generated = (0..).map(|number| text(&mut Random::of_case(seed, number)));
    let known = known();
    let most = known.iter().collect::<BTreeSet<_>>().len() + GENERATED;
    for text in known.into_iter().chain(generated) {
        if seen.len() == most {
            break;
        }
        if seen.insert(text.clone()) {
            let fields = read(&text)?;
            instants += usize::from(fields.is_some());
            bytes.extend(line(&text, fields).into_bytes());
            bytes.extend([text.as_slice(), b"\n"].concat());
        }
    }
    let bytes = [head(most, seed).into_bytes(), bytes].concat();
    std::fs::write(file, bytes).map_err(|error| format!("{file} cannot be written: {error}"))?;
    println!("{most} texts, {instants} of them instants, written to {file}");
    Ok(())
}

fn head(texts: usize, seed: u64) -> String {
    format!(
        "# {texts} texts, instants or not, with their fields, written by host/differential/run SOURCES instants-vectors --out FILE --seed {seed}; the\n\
         # same seed gives the same bytes. The fields are those of the model, with which a second reading of the format agrees; the library was not\n\
         # asked. The crate in host/ asks it, through rulecheck_instant.\n\
         # A case is a line with nine numbers parted by commas: the byte count of the text, the answer, 0 or 20, and year, month, day, hour,\n\
         # minute, second and nanoseconds, 0 where the text is no instant. Then come the text, which need not be UTF-8, and a line end. Lines\n\
         # that begin with # stand here only, before the first case.\n"
    )
}

fn line(text: &[u8], fields: Option<Fields>) -> String {
    let number = if fields.is_some() { 0 } else { 20 };
    let fields = fields.unwrap_or_default().map(|field| field.to_string());
    format!("{},{number},{}\n", text.len(), fields.join(","))
}
