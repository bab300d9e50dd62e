//! Cases as plain bytes without counts, so that a fuzzer can change them at any place: kind, semantics, buffers, the label's length, the label, then
//! the table and both sheets. Each sheet begins with the first line that has its letter, and what comes before a schema sheet is the table.

use crate::runs::vectors;
use cases::case::Case;
use cases::json::edges::edges;
use cases::json::generate;
use cases::limits::{MIN_PATH_BYTES, MIN_SCRATCH_WORDS};
use cases::random::Random;
use cases::tables;
use std::path::Path;

/// The case that the bytes stand for; none where they are too few.
pub fn case(bytes: &[u8]) -> Option<Case> {
    let ([kind, semantics, buffers, label], rest) = bytes.split_first_chunk()?;
    let (label, sheets) = rest.split_at_checked(usize::from(*label))?;
    let start = line_of(sheets, &[b"R,", b"T\n"]).unwrap_or(sheets.len());
    let (before, rule) = sheets.split_at(start);
    let (table, schema) = before.split_at(line_of(before, &[b"H,"]).unwrap_or(0));
    let case = Case::new(u64::from(*kind), u64::from(*semantics), label, schema.to_vec(), rule.to_vec()).under(table.to_vec());
    let path_len = MIN_PATH_BYTES - usize::from(buffers & 1);
    Some(Case { path_len, scratch_len: MIN_SCRATCH_WORDS - usize::from(buffers >> 1 & 1), ..case })
}

/// Where the first line begins that starts with one of these.
fn line_of(bytes: &[u8], starts: &[&[u8]]) -> Option<usize> {
    let begins = |at: &usize| *at == 0 || bytes[at - 1] == b'\n';
    (0..bytes.len()).filter(begins).find(|at| starts.iter().any(|start| bytes[*at..].starts_with(start)))
}

/// The bytes of a case; none where its settings or its label have no room in them.
fn bytes(case: &Case) -> Option<Vec<u8>> {
    let byte = |number: u64| u8::try_from(number).ok();
    let head = [byte(case.kind)?, byte(case.semantics)?, 0, byte(case.label.len() as u64)?];
    Some([&head, case.label.as_slice(), &case.table, &case.schema, &case.rule].concat())
}

/// Writes the cases of a list, and some with tables, as files of a folder, from which a fuzzer can start.
pub fn corpus(list: &str, folder: &str) -> Result<(), String> {
    let with_tables = tables::edges::edges();
    write(folder, vectors::read(list)?.iter().chain(&with_tables).filter_map(bytes))
}

/// How many generated texts and sheets a fuzzer starts from.
const GENERATED: u64 = 1_000;

/// The same of JSON texts and of rule sheets: known texts, and generated ones.
pub fn json_corpus(texts: &str, sheets: &str) -> Result<(), String> {
    let known = edges().into_iter().map(|case| case.text);
    let randoms = || (0..GENERATED).map(|number| Random::of_case(1, number));
    write(texts, known.chain(randoms().map(|mut random| generate::case(&mut random).1.text)))?;
    write(sheets, randoms().map(|mut random| generate::sheet(&mut random)))
}

fn write(folder: &str, inputs: impl Iterator<Item = Vec<u8>>) -> Result<(), String> {
    let failed = |error: std::io::Error| format!("{folder} cannot be written: {error}");
    std::fs::create_dir_all(folder).map_err(failed)?;
    for (index, input) in inputs.enumerate() {
        std::fs::write(Path::new(folder).join(format!("{index:05}")), input).map_err(failed)?;
    }
    Ok(())
}
