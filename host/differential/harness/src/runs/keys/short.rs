//! `keys-exhaustive`: every short path under both readers and all four semantics, with a dozen schemas.

use crate::library;
use crate::library::lent::Extent;
use crate::oracle::Schemas;
use crate::runs::exhaustive::{numbered_schema, SCHEMAS};
use crate::runs::keys::run::Table;
use crate::runs::keys::{report, same};
use cases::keys::{KeyCase, READERS};
use model::{check_key, write_schema};

/// Names of the schemas, ordinals, and what parts them; no root comes before a key.
const TOKENS: [&str; 9] = ["b", ".", "0", "1", "é", "count", "value", "fields", "arr"];

/// All paths of up to that many tokens.
pub fn exhaustive(tokens: u32) -> Result<(), String> {
    let mut table = Table::default();
    let mut cases = 0_u64;
    for index in 0..SCHEMAS {
        let schema = numbered_schema(index);
        let (sheet, rust) = (write_schema(&schema), Schemas::new(&schema));
        for path in (0..=tokens).flat_map(paths) {
            for reader in READERS {
                for semantics in 1..=4 {
                    let case = KeyCase::new(semantics, reader, &path, sheet.clone());
                    let answer = check_key(&case.call());
                    let agreed = library::keys::hold(&case, &answer, Extent::Some);
                    let agreed = agreed.and_then(|()| same(&answer, &rust, semantics, reader, &path));
                    agreed.map_err(|trouble| report(&case, &trouble, "exhaustive"))?;
                    table.count(&case, &answer);
                    cases += 1;
                }
            }
        }
    }
    println!("{table}{cases} cases: paths of up to {tokens} tokens");
    println!("no disagreement");
    Ok(())
}

/// Every path of exactly so many tokens.
fn paths(length: u32) -> impl Iterator<Item = String> {
    (0..TOKENS.len().pow(length)).map(move |mut index| {
        let mut path = String::new();
        for _ in 0..length {
            path.push_str(TOKENS[index % TOKENS.len()]);
            index /= TOKENS.len();
        }
        path
    })
}
