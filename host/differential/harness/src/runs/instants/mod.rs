//! Instants: the model's reading compared with a second one, written apart from it, and with the library's.
//!
//! The reader of the Rust is not available. Where the sources bring it, `is_instant` asks it; otherwise it asks the stand-in.

pub mod run;
pub mod vectors;

use crate::library;
use crate::readings::instants::{second, Fields};
use cases::generate::values::{INSTANTS, NO_INSTANTS};
use cases::instants::characters;
use entity_core::validation::entry::is_instant;
use model::instant;
use std::str;

/// Every text one edit away from those of the lists, and every date of four digits.
pub fn one_edit_away() -> Result<(), String> {
    let mut count = 0_u64;
    for sample in INSTANTS.iter().chain(&NO_INSTANTS) {
        for text in edits(sample) {
            hold(text.as_bytes())?;
            count += 1;
        }
    }
    println!("instants one edit away: {count} texts");
    println!("dates: {} texts", dates()?);
    Ok(())
}

/// The text itself, and what an insertion, a deletion, a replacement or an exchange of neighbours makes of it.
fn edits(sample: &str) -> Vec<String> {
    let letters: Vec<char> = sample.chars().collect();
    let mut found = vec![sample.to_owned()];
    for at in 0..=letters.len() {
        let (head, tail) = letters.split_at(at);
        let around = |middle: &[char], skip: usize| head.iter().chain(middle).chain(&tail[skip..]).collect::<String>();
        found.extend(characters().map(|new| around(&[new], 0)));
        if !tail.is_empty() {
            found.push(around(&[], 1));
            found.extend(characters().map(|new| around(&[new], 1)));
        }
        if tail.len() > 1 {
            found.push(around(&[tail[1], tail[0]], 2));
        }
    }
    found
}

/// Every year of four digits with months to 13 and days to 32.
fn dates() -> Result<u64, String> {
    let mut count = 0;
    for year in 0..10_000 {
        for day in 0..14 * 33 {
            hold(format!("{year:04}-{:02}-{:02}", day / 33, day % 33).as_bytes())?;
            count += 1;
        }
    }
    Ok(count)
}

/// Compares library, model and second reading with each other: the fields, or none.
pub fn hold(text: &[u8]) -> Result<Option<Fields>, String> {
    let fields = read(text)?;
    library::instants::hold(text, fields).map_err(|trouble| format!("{:?}: {trouble}", String::from_utf8_lossy(text)))?;
    Ok(fields)
}

/// What the model reads, with which the second reading agrees. Bytes that are not text are not an instant.
pub fn read(text: &[u8]) -> Result<Option<Fields>, String> {
    let Ok(text) = str::from_utf8(text) else {
        return Ok(None);
    };
    let model = instant::parse(text).map(|read| [read.year, read.month, read.day, read.hour, read.minute, read.second, read.nanosecond]);
    let other = second::parse(text).map(|read| [read.year, read.month, read.day, read.hour, read.minute, read.second, read.nanosecond]);
    if model.map(|fields| fields.map(i64::from)) != other {
        return Err(format!("{text:?}: the model reads {model:?}, the second reading {other:?}"));
    }
    if model.is_some() != is_instant(text) {
        return Err(format!("{text:?}: the model reads {model:?}, the Rust otherwise"));
    }
    Ok(model)
}
