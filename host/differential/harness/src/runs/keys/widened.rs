//! `keys-widened`: how a path fares under both readers when the schema grows.

use crate::library::lent::Extent;
use crate::readings::answer::line;
use crate::runs::changes::{changes, Fared, Table};
use crate::runs::keys::{hold, report};
use crate::runs::widened::{promise, schemas};
use cases::generate::schemas::{name, schema};
use cases::generate::widen::Level;
use cases::keys::generate::{damaged_path, right_path};
use cases::keys::{KeyCase, READERS};
use cases::random::Random;
use model::trees::Schema;
use model::{is_widening, only_marks_opened, write_schema};

/// Runs so many pairs of schemas that differ, each with one path under both readers; an error has already been printed.
pub fn widened(pairs: u64, seed: u64) -> Result<(), String> {
    let mut tables = READERS.map(|_| Table::default());
    let (mut counted, mut equal) = (0, 0_u64);
    for number in 0.. {
        if counted == pairs {
            break;
        }
        let mut random = Random::of_case(seed, number);
        let semantics = if random.chance(20) { 1 } else { random.between(2, 4) as u64 };
        let fields = random.between(1, 5);
        let made = schema(&mut random, fields);
        let path = path(&mut random, &made, semantics > 1);
        let level = if random.chance(40) { Level::Marks } else { Level::Any };
        let (narrow, wide) = schemas(&mut random, &made, level);
        if !is_widening(&narrow, &wide) {
            return Err(format!("a widening is not taken for one: {narrow:?} to {wide:?}"));
        }
        let changes = changes(&narrow, &wide);
        for (reader, table) in READERS.into_iter().zip(&mut tables) {
            let cases = [&narrow, &wide].map(|schema| KeyCase::new(semantics, reader, &path, write_schema(schema)));
            let fared = fare(&cases, only_marks_opened(&narrow, &wide))
                .map_err(|(at, trouble)| report(&cases[at], &trouble, &format!("case {number} of seed {seed}")))?;
            if !changes.is_empty() {
                table.count(&changes, fared);
            }
        }
        if changes.is_empty() {
            equal += 1;
        } else {
            counted += 1;
        }
    }
    for (reader, table) in ["Kernel", "Projection"].into_iter().zip(&tables) {
        println!("reader {reader}\n{table}");
    }
    println!("{counted} pairs that differ, each under both readers; not counted: {equal} of equal schemas");
    println!("no widening broke a promise (seed {seed})");
    Ok(())
}

/// A path that can be read under the schema, or one some edits away.
fn path(random: &mut Random, schema: &Schema, service: bool) -> String {
    let right = right_path(random, schema, service).unwrap_or_else(|| name(random).to_owned());
    if random.chance(30) {
        damaged_path(random, &right)
    } else {
        right
    }
}

/// Both calls, each answered by all three, and the promise about the two. An error says which case it is about, 0 or 1.
fn fare(cases: &[KeyCase; 2], marks_alone: bool) -> Result<Fared, (usize, String)> {
    let first = hold(&cases[0], Extent::Some).map_err(|trouble| (0, trouble))?;
    let second = hold(&cases[1], Extent::Some).map_err(|trouble| (1, trouble))?;
    let broken = || (1, format!("{} under the first schema, {} under the second", line(&first), line(&second)));
    promise(&first, &second, marks_alone).ok_or_else(broken)
}
