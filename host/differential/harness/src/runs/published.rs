//! `samples`: the known edges, the slips, and the published samples of UTF-8, blank text, numbers and instants, each as a whole case: by library, model and
//! Rust, and by the program `rulecheck` itself where it is given.

use crate::library::lent::Extent;
use crate::readings::answer::line;
use crate::runs::agreement::{hold_with, Held};
use crate::runs::compare::report;
use cases::case::{Case, Expect};
use cases::edges::edges;
use cases::generate::build::{holder, literal, pair, schema, text};
use cases::limits::MAX_TEXT_BYTES;
use cases::samples::{lines, Kind, Sample};
use cases::slips::slips;
use model::trees::{Rule, Sheet};
use model::{write_rule, write_schema, Answer};
use std::fs;
use std::path::Path;
use std::process::Command;

/// Runs them; an error is a difference.
pub fn published(program: Option<&str>) -> Result<(), String> {
    let program = program.map(Program::new).transpose()?;
    let mut counts: Vec<(&str, u64)> = Vec::new();
    let mut count = |what: &'static str, cases: Vec<(Case, Option<String>)>| -> Result<(), String> {
        for (case, printed) in &cases {
            one(case, printed.as_deref(), program.as_ref())?;
        }
        counts.push((what, cases.len() as u64));
        Ok(())
    };
    count("known edges", edges().into_iter().map(|case| (case, None)).collect())?;
    count("slips", slips()?.into_iter().map(|(_, case, printed)| (case, Some(printed.to_owned()))).collect())?;
    for (what, kind) in [("UTF-8", Kind::Utf8), ("blank text", Kind::Blank), ("instants", Kind::Instant), ("numbers", Kind::Number)] {
        count(what, lines().iter().filter(|sample| sample.kind == kind).flat_map(cases).map(|case| (case, None)).collect())?;
    }
    for (what, count) in counts {
        println!("{what}: {count} cases");
    }
    let of_program = if program.is_some() { ", and the program prints each answer" } else { "; the program is not run without --program" };
    println!("no disagreement{of_program}");
    Ok(())
}

/// Holds one case, and has the program print the answer.
fn one(case: &Case, printed: Option<&str>, program: Option<&Program>) -> Result<(), String> {
    let held = hold_with(case, Extent::All).map_err(|trouble| report(case, &trouble, "a sample"))?;
    let answer = match held {
        Held::Refused(number) => Answer { number, ..Answer::default() },
        Held::Agreed(answer) => answer,
        Held::KeptOut => return Ok(()),
    };
    let answered = line(&answer);
    if printed.is_some_and(|printed| printed != answered) {
        return Err(format!("{answered} is answered, not {printed:?}"));
    }
    match program {
        Some(program) => program.prints(case, &answer),
        None => Ok(()),
    }
}

/// Every sample as cases, in the order of the lists.
pub fn sample_cases() -> Vec<Case> {
    lines().iter().flat_map(cases).collect()
}

/// The cases that a sample is in. Its verdict gives the answer.
fn cases(sample: &Sample) -> Vec<Case> {
    let Sample { kind, bytes, holds, .. } = sample;
    let empty = write_schema(&schema(holder(false, Vec::new()), None));
    let with = |label: &[u8], rule: Vec<u8>| Case::new(1, 2, label, empty.clone(), rule);
    let number = |refused: u32| Expect::Number(if *holds { 0 } else { refused });
    let raw = |head: &str, tail: &[u8]| [head.as_bytes(), bytes, b"\n", tail].concat();
    let length = bytes.len();
    match kind {
        Kind::Utf8 => vec![
            with(bytes, b"T\nV,1,0,\n".to_vec()).expecting(number(2)),
            with(b"r", raw(&format!("T\nV,5,{length},"), b"")).expecting(if *holds { Expect::Read } else { Expect::Number(5) }),
        ],
        Kind::Blank => {
            let name = String::from_utf8_lossy(bytes).into_owned();
            let named = Sheet::Rule(Rule { name: Some(name), message: None, condition: literal(true) });
            vec![with(b"r", write_rule(&named)).expecting(Expect::Number(if *holds { 11 } else { 0 }))]
        }
        Kind::Instant => {
            let operand = text(&String::from_utf8_lossy(bytes));
            let sheet = Sheet::Rule(Rule { name: None, message: None, condition: pair(6, operand, text("2024-01-01")) });
            vec![with(b"r", write_rule(&sheet)).expecting(number(20))]
        }
        Kind::Number => {
            let expect = match (holds, sample.finite) {
                _ if length > MAX_TEXT_BYTES => Expect::Number(5),
                (false, _) => Expect::Number(5),
                (true, finite) => Expect::Number(if finite { 0 } else { 14 }),
            };
            vec![with(b"r", raw(&format!("R,-,-,\nC,19,0,\nV,4,{length},"), b"")).expecting(expect)]
        }
    }
}

/// The program, run in a folder of its own.
struct Program {
    path: std::path::PathBuf,
    folder: std::path::PathBuf,
}

impl Program {
    fn new(path: &str) -> Result<Self, String> {
        let path = Path::new(path).canonicalize().map_err(|error| format!("{path}: {error}"))?;
        let folder = std::env::temp_dir().join(format!("rulecheck-{}", std::process::id()));
        fs::create_dir_all(&folder).map_err(|error| format!("{}: {error}", folder.display()))?;
        Ok(Self { path, folder })
    }

    /// An error if it prints another line for the case than the answer.
    fn prints(&self, case: &Case, answer: &Answer) -> Result<(), String> {
        fs::write(self.folder.join("check.in"), case.check_in()).map_err(|error| format!("check.in: {error}"))?;
        let output = Command::new(&self.path).current_dir(&self.folder).output().map_err(|error| format!("the program: {error}"))?;
        let wanted = [crate::readings::answer::printed(answer).as_slice(), b"\n"].concat();
        if output.stdout == wanted && output.status.success() {
            return Ok(());
        }
        let printed = String::from_utf8_lossy(&output.stdout);
        Err(report(case, &format!("the program prints {printed:?} and ends with {}", output.status), "a sample"))
    }
}

impl Drop for Program {
    fn drop(&mut self) {
        // A folder that stays behind does no harm.
        let _ = fs::remove_dir_all(&self.folder);
    }
}
