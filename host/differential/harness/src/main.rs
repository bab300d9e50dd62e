//! The commands of the comparison. See README.md beside the script `run`.

use harness::runs::{
    books, compare, exhaustive, fuzzed, instants, json, keys, marks, memory, messages, moved, openings, published, tables, text_samples,
    vectors, walls, widened, widens,
};
use std::collections::BTreeMap;
use std::process::ExitCode;

const USAGE: &str = "usage: differential COMMAND [OPTION..]
  compare [--cases N] [--seed S] [--last S] [--record FILE]
                                   known edges, then N generated cases of each seed: library, model and Rust;
                                   runs that FILE has are left out, and new ones are added to it
  widened [--cases N] [--seed S]   N rules, each under a schema and a widening of it that differs
  moved [--cases N] [--seed S]     N rules that kernel/1 accepts, each under the service semantics too
  exhaustive [--tokens N]          every reference of up to N tokens (2 to 7, else 6), every instant near a good one
  keys [--cases N] [--seed S]      known edges of keys, then N generated ones under both readers and all semantics
  keys-widened [--cases N] [--seed S]
                                   N pairs of schemas that differ, the second a widening, each with a key under both readers
  keys-exhaustive [--tokens N]     every key of up to N tokens (2 to 7, else 6) under both readers and all semantics
  keys-vectors --out FILE [--seed S]
                                   writes the fixed list of keys and their answers
  tables [--cases N] [--seed S]    known edges of name tables, then N generated cases that are lent one, and N tables to load
  tables-widened [--cases N] [--seed S]
                                   as widened, each pair of calls under one table
  tables-moved [--cases N] [--seed S]
                                   as moved, each rule under one table
  tables-vectors --out FILE --loads FILE [--seed S]
                                   writes the fixed lists of checks under tables, and of tables to load, with their answers
  books [--cases N] [--seed S]     known rule books, then N generated ones (50,000): the tally of library and model against single checks
                                   by library, model and Rust
  books-vectors --out FILE [--seed S]
                                   writes the fixed list of rule books and their tallies
  walls [--cases N] [--seed S]     known rule books, then N generated ones (20,000): their pages by library and model
  walls-vectors --out FILE [--seed S]
                                   writes the fixed list of rule books and their pages
  instants [--cases N] [--seed S]  known texts, then N generated ones: which are instants, and their fields
  instants-vectors --out FILE [--seed S]
                                   writes the fixed list of texts and their fields; the library is not asked
  marks [--cases N] [--seed S]     known rules that compare instants, then N generated ones: which conditions are constant
  marks-vectors --out FILE [--seed S]
                                   writes the fixed list of rules and their marks
  messages [--cases N] [--seed S]  a known defect for each sentence, then N generated ones: the messages of library, model and Rust
  messages-vectors --out FILE [--seed S]
                                   writes the fixed list of defects and their messages
  json [--cases N] [--seed S]      known JSON texts of rules, then N generated ones and N sheets: what is made of them by library, model and
                                   serde_json on the Rust's own types
  json-vectors --out FILE [--seed S]
                                   writes the fixed list of texts and sheets with what is made of them; the library is not asked
  openings [--cases N] [--seed S]  known rules for schemas that are too closed for them, then N generated ones (200,000): the fewest marks to
                                   open by library and model, and every set of openings by the Rust
  openings-vectors --out FILE [--seed S]
                                   writes the fixed list of rules and the marks to open for them
  widens [--cases N] [--seed S]    known pairs of schemas, then N generated ones: is the second a widening, by library and model; and N
                                   with a rule, compared with the Rust
  widens-vectors --out FILE [--seed S]
                                   writes the fixed list of pairs of schemas and their answers
  text_samples                     text and numbers of the model against Rust's own
  samples [--program FILE]         known edges, slips and published samples: library, model and Rust, and the program rulecheck
  vectors --out FILE [--printed FILE] [--seed S]
                                   writes the fixed list of answers, and the line that the program vectors prints for it
  memory --list FILE [--cases N] [--seed S]
                                   that list and N generated cases with buffers of exact length, for a run under valgrind
  corpus --list FILE --out FOLDER  the cases of that list as files from which a fuzzer starts
  json-corpus --texts FOLDER --sheets FOLDER
                                   JSON texts and rule sheets as files from which a fuzzer starts";

fn main() -> ExitCode {
    let arguments: Vec<String> = std::env::args().skip(1).collect();
    match run(&arguments) {
        Ok(()) => ExitCode::SUCCESS,
        Err(Trouble::Usage(problem)) => {
            eprintln!("differential: {problem}\n{USAGE}");
            ExitCode::from(2)
        }
        Err(Trouble::Failed(problem)) => {
            eprintln!("differential: {problem}");
            ExitCode::FAILURE
        }
    }
}

enum Trouble {
    /// The arguments are wrong; nothing was done.
    Usage(String),
    Failed(String),
}

fn run(arguments: &[String]) -> Result<(), Trouble> {
    let (command, rest) = arguments.split_first().ok_or_else(|| Trouble::Usage("no command".to_owned()))?;
    match command.as_str() {
        "compare" => {
            let options = options(rest, &["cases", "seed", "last", "record"])?;
            let seed = numeral(&options, "seed", 1)?;
            let seeds = seed..=numeral(&options, "last", seed)?;
            compare::compare(numeral(&options, "cases", 1_000_000)?, seeds, options.get("record").copied()).map_err(Trouble::Failed)
        }
        "widened" | "tables-widened" => {
            let options = options(rest, &["cases", "seed"])?;
            let (pairs, seed) = (numeral(&options, "cases", 1_000_000)?, numeral(&options, "seed", 1)?);
            widened::widened(pairs, seed, command == "tables-widened").map_err(Trouble::Failed)
        }
        "moved" | "tables-moved" => {
            let options = options(rest, &["cases", "seed"])?;
            let (rules, seed) = (numeral(&options, "cases", 1_000_000)?, numeral(&options, "seed", 1)?);
            moved::moved(rules, seed, command == "tables-moved").map_err(Trouble::Failed)
        }
        "tables" => {
            let options = options(rest, &["cases", "seed"])?;
            tables::run::tables(numeral(&options, "cases", 1_000_000)?, numeral(&options, "seed", 1)?).map_err(Trouble::Failed)
        }
        "tables-vectors" => {
            let options = options(rest, &["out", "loads", "seed"])?;
            let [checks, loads] = ["out", "loads"].map(|name| options.get(name).copied());
            let files = checks.zip(loads).ok_or_else(|| Trouble::Usage("tables-vectors needs --out FILE and --loads FILE".to_owned()))?;
            tables::vectors::vectors(files.0, files.1, numeral(&options, "seed", 1)?).map_err(Trouble::Failed)
        }
        "books" => {
            let options = options(rest, &["cases", "seed"])?;
            books::run::books(numeral(&options, "cases", 50_000)?, numeral(&options, "seed", 1)?).map_err(Trouble::Failed)
        }
        "books-vectors" => {
            let options = options(rest, &["out", "seed"])?;
            let file = options.get("out").ok_or_else(|| Trouble::Usage("books-vectors needs --out FILE".to_owned()))?;
            books::vectors::vectors(file, numeral(&options, "seed", 1)?).map_err(Trouble::Failed)
        }
        "walls" => {
            let options = options(rest, &["cases", "seed"])?;
            walls::run::walls(numeral(&options, "cases", 20_000)?, numeral(&options, "seed", 1)?).map_err(Trouble::Failed)
        }
        "walls-vectors" => {
            let options = options(rest, &["out", "seed"])?;
            let file = options.get("out").ok_or_else(|| Trouble::Usage("walls-vectors needs --out FILE".to_owned()))?;
            walls::vectors::vectors(file, numeral(&options, "seed", 1)?).map_err(Trouble::Failed)
        }
        "widens" => {
            let options = options(rest, &["cases", "seed"])?;
            widens::run::widens(numeral(&options, "cases", 1_000_000)?, numeral(&options, "seed", 1)?).map_err(Trouble::Failed)
        }
        "widens-vectors" => {
            let options = options(rest, &["out", "seed"])?;
            let file = options.get("out").ok_or_else(|| Trouble::Usage("widens-vectors needs --out FILE".to_owned()))?;
            widens::vectors::vectors(file, numeral(&options, "seed", 1)?).map_err(Trouble::Failed)
        }
        "exhaustive" => {
            let options = options(rest, &["tokens"])?;
            exhaustive::exhaustive(tokens(&options)?).map_err(Trouble::Failed)
        }
        "keys" => {
            let options = options(rest, &["cases", "seed"])?;
            keys::run::keys(numeral(&options, "cases", 1_000_000)?, numeral(&options, "seed", 1)?).map_err(Trouble::Failed)
        }
        "keys-widened" => {
            let options = options(rest, &["cases", "seed"])?;
            keys::widened::widened(numeral(&options, "cases", 1_000_000)?, numeral(&options, "seed", 1)?).map_err(Trouble::Failed)
        }
        "keys-exhaustive" => {
            let options = options(rest, &["tokens"])?;
            keys::short::exhaustive(tokens(&options)?).map_err(Trouble::Failed)
        }
        "keys-vectors" => {
            let options = options(rest, &["out", "seed"])?;
            let file = options.get("out").ok_or_else(|| Trouble::Usage("keys-vectors needs --out FILE".to_owned()))?;
            keys::vectors::vectors(file, numeral(&options, "seed", 1)?).map_err(Trouble::Failed)
        }
        "instants" => {
            let options = options(rest, &["cases", "seed"])?;
            instants::run::instants(numeral(&options, "cases", 1_000_000)?, numeral(&options, "seed", 1)?).map_err(Trouble::Failed)
        }
        "instants-vectors" => {
            let options = options(rest, &["out", "seed"])?;
            let file = options.get("out").ok_or_else(|| Trouble::Usage("instants-vectors needs --out FILE".to_owned()))?;
            instants::vectors::vectors(file, numeral(&options, "seed", 1)?).map_err(Trouble::Failed)
        }
        "marks" => {
            let options = options(rest, &["cases", "seed"])?;
            marks::run::marks(numeral(&options, "cases", 1_000_000)?, numeral(&options, "seed", 1)?).map_err(Trouble::Failed)
        }
        "marks-vectors" => {
            let options = options(rest, &["out", "seed"])?;
            let file = options.get("out").ok_or_else(|| Trouble::Usage("marks-vectors needs --out FILE".to_owned()))?;
            marks::vectors::vectors(file, numeral(&options, "seed", 1)?).map_err(Trouble::Failed)
        }
        "messages" => {
            let options = options(rest, &["cases", "seed"])?;
            messages::run::messages(numeral(&options, "cases", 1_000_000)?, numeral(&options, "seed", 1)?).map_err(Trouble::Failed)
        }
        "messages-vectors" => {
            let options = options(rest, &["out", "seed"])?;
            let file = options.get("out").ok_or_else(|| Trouble::Usage("messages-vectors needs --out FILE".to_owned()))?;
            messages::vectors::vectors(file, numeral(&options, "seed", 1)?).map_err(Trouble::Failed)
        }
        "json" => {
            let options = options(rest, &["cases", "seed"])?;
            json::run::json(numeral(&options, "cases", 1_000_000)?, numeral(&options, "seed", 1)?).map_err(Trouble::Failed)
        }
        "json-vectors" => {
            let options = options(rest, &["out", "seed"])?;
            let file = options.get("out").ok_or_else(|| Trouble::Usage("json-vectors needs --out FILE".to_owned()))?;
            json::vectors::vectors(file, numeral(&options, "seed", 1)?).map_err(Trouble::Failed)
        }
        "openings" => {
            let options = options(rest, &["cases", "seed"])?;
            openings::run::openings(numeral(&options, "cases", 200_000)?, numeral(&options, "seed", 1)?).map_err(Trouble::Failed)
        }
        "openings-vectors" => {
            let options = options(rest, &["out", "seed"])?;
            let file = options.get("out").ok_or_else(|| Trouble::Usage("openings-vectors needs --out FILE".to_owned()))?;
            openings::vectors::vectors(file, numeral(&options, "seed", 1)?).map_err(Trouble::Failed)
        }
        "vectors" => {
            let options = options(rest, &["out", "printed", "seed"])?;
            let file = options.get("out").ok_or_else(|| Trouble::Usage("vectors needs --out FILE".to_owned()))?;
            vectors::vectors(file, options.get("printed").copied(), numeral(&options, "seed", 1)?).map_err(Trouble::Failed)
        }
        "memory" => {
            let options = options(rest, &["list", "cases", "seed"])?;
            let list = options.get("list").ok_or_else(|| Trouble::Usage("memory needs --list FILE".to_owned()))?;
            memory::memory(list, numeral(&options, "cases", 100_000)?, numeral(&options, "seed", 1)?).map_err(Trouble::Failed)
        }
        "samples" => {
            let options = options(rest, &["program"])?;
            published::published(options.get("program").copied()).map_err(Trouble::Failed)
        }
        "corpus" => {
            let options = options(rest, &["list", "out"])?;
            let [list, folder] = ["list", "out"].map(|name| options.get(name).copied());
            let (list, folder) = list.zip(folder).ok_or_else(|| Trouble::Usage("corpus needs --list FILE and --out FOLDER".to_owned()))?;
            fuzzed::corpus(list, folder).map_err(Trouble::Failed)
        }
        "json-corpus" => {
            let options = options(rest, &["texts", "sheets"])?;
            let [texts, sheets] = ["texts", "sheets"].map(|name| options.get(name).copied());
            let folders =
                texts.zip(sheets).ok_or_else(|| Trouble::Usage("json-corpus needs --texts FOLDER and --sheets FOLDER".to_owned()))?;
            fuzzed::json_corpus(folders.0, folders.1).map_err(Trouble::Failed)
        }
        "text_samples" => {
            options(rest, &[])?;
            text_samples::text_samples().map_err(Trouble::Failed)
        }
        other => Err(Trouble::Usage(format!("there is no command {other}"))),
    }
}

/// The options by name, each given at most once and each with a value.
fn options<'a>(arguments: &'a [String], known: &[&str]) -> Result<BTreeMap<&'a str, &'a str>, Trouble> {
    let mut options = BTreeMap::new();
    for pair in arguments.chunks(2) {
        let name = pair[0].strip_prefix("--").filter(|name| known.contains(name));
        let name = name.ok_or_else(|| Trouble::Usage(format!("{} is not an option of this command", pair[0])))?;
        let value = pair.get(1).ok_or_else(|| Trouble::Usage(format!("--{name} has no value")))?;
        if options.insert(name, value.as_str()).is_some() {
            return Err(Trouble::Usage(format!("--{name} is given twice")));
        }
    }
    Ok(options)
}

/// Two tokens are a binder's reference; past seven a run takes hours.
fn tokens(options: &BTreeMap<&str, &str>) -> Result<u32, Trouble> {
    match numeral(options, "tokens", 6)? {
        tokens @ 2..=7 => Ok(tokens as u32),
        other => Err(Trouble::Usage(format!("--tokens takes a number from 2 to 7, not {other}"))),
    }
}

fn numeral(options: &BTreeMap<&str, &str>, name: &str, default: u64) -> Result<u64, Trouble> {
    match options.get(name) {
        None => Ok(default),
        Some(text) => text.parse().map_err(|_| Trouble::Usage(format!("--{name} takes a number, not {text}"))),
    }
}
