//! Command lines, and what is made of them.

#![allow(clippy::unwrap_used)]

use super::options::{FLAGS, OTHERS};
use super::*;

fn parsed(line: &str) -> Result<Command, String> {
    parse(line.split_whitespace().map(OsString::from))
}

fn error(line: &str) -> String {
    parsed(line).unwrap_err()
}

#[test]
fn options_stand_anywhere() {
    let expected = Command::Check(Arguments {
        schema: "s".into(),
        asked: Asked::Rules {
            files: vec!["a".into(), "b".into()],
            kind: Some(Kind::CreateSelector),
            label: Some("x".to_owned()),
            table: Some("t".into()),
        },
        semantics: Semantics::Service1,
        output: Output {
            json: true,
            ..Output::default()
        },
    });
    for line in [
        "check s a b --kind create_selector --semantics service/1 --label x --table t --json",
        "check --json --kind=create-selector s --label=x --table=t a --semantics=service/1 b",
        "check --label x --json --kind create_selector --table t --semantics service/1 -- s a b",
    ] {
        assert_eq!(parsed(line).as_ref(), Ok(&expected), "{line}");
    }
    assert_eq!(parsed("check --json --help"), Ok(Command::Help));
    assert_eq!(parsed("-V"), Ok(Command::Version));
    assert_eq!(parsed("table"), Ok(Command::Table));
}

#[test]
fn paths_may_look_like_options_and_the_reader_is_the_kernel() {
    let paths = |line: &str| match parsed(line) {
        Ok(Command::Check(arguments)) => Some(arguments.asked),
        _ => None,
    };
    let keys = |paths: &[&str], reader| {
        let paths = paths.iter().map(OsString::from).collect();
        Some(Asked::Keys { paths, reader })
    };
    assert_eq!(
        paths("path s a - --semantics kernel/1"),
        keys(&["a", "-"], Reader::Kernel)
    );
    assert_eq!(
        paths("path --reader=projection --semantics service/3 -- s --json"),
        keys(&["--json"], Reader::Projection)
    );
}

#[test]
fn errors_of_path_say_what_was_expected() {
    assert_eq!(error("path"), "path: expected the file SCHEMA and a PATH");
    assert_eq!(
        error("path s"),
        "path: expected at least one PATH after \"s\""
    );
    assert!(
        error("path s a")
            .starts_with("path: expected --semantics SEMANTICS, one of kernel/1, service/1,")
    );
    assert_eq!(
        error("path s a --reader store"),
        "--reader: \"store\" is not a known reader; expected one of kernel, projection"
    );
    for (line, option) in [
        ("path s a --kind invariant", "path: --kind"),
        ("path s a --label x", "path: --label"),
        ("path s a --table t", "path: --table"),
        ("check s r --reader kernel", "check: --reader"),
    ] {
        let expected = format!("{option} is not an option of this command");
        assert_eq!(error(line), expected);
    }
}

#[test]
fn a_tally_takes_one_book() {
    let run = BookRun {
        schema: "s".into(),
        book: "b".into(),
        kind: Kind::Invariant,
        semantics: Semantics::Kernel1,
        label: None,
        table: Some("t".into()),
        output: Output {
            json: true,
            quiet: true,
            ..Output::default()
        },
    };
    let settings = "--kind invariant --semantics kernel/1";
    assert_eq!(
        parsed(&format!("tally s b {settings} --table t --json --quiet")),
        Ok(Command::Tally(run))
    );
    for words in ["", "s", "s b c"] {
        let expected = "tally: expected the files SCHEMA and BOOK";
        assert_eq!(error(&format!("tally {words} {settings}")), expected);
    }
    for option in ["--label x", "--sarif", "--constants"] {
        let (name, _) = option.split_once(' ').unwrap_or((option, ""));
        let expected = format!("tally: {name} is not an option of this command");
        assert_eq!(error(&format!("tally s b {settings} {option}")), expected);
    }
    assert!(error("tally s b").starts_with("tally: expected --kind KIND, one of"));
    assert!(
        error("tally s b --kind invariant").starts_with("tally: expected --semantics SEMANTICS")
    );
    assert_eq!(
        error(&format!("tally - - {settings}")),
        "tally: expected `-`, standard input, at most once"
    );
}

#[test]
fn a_wall_sheet_takes_a_label() {
    let settings = "--kind invariant --semantics kernel/1";
    let label = |line: &str| match parsed(&format!("wall s b {settings} {line}")) {
        Ok(Command::Wall(run)) => run.label,
        _ => Some("no wall sheet".to_owned()),
    };
    assert_eq!(label("--label x").as_deref(), Some("x"));
    assert_eq!(label(""), None);
    for option in ["--json", "--quiet", "--reader kernel", "--sarif"] {
        let (name, _) = option.split_once(' ').unwrap_or((option, ""));
        let expected = format!("wall: {name} is not an option of this command");
        assert_eq!(error(&format!("wall s b {settings} {option}")), expected);
    }
    assert_eq!(
        error(&format!("wall s {settings}")),
        "wall: expected the files SCHEMA and BOOK"
    );
}

#[test]
fn objects_are_opened_for_rules() {
    let settings = "--kind invariant --semantics kernel/1";
    let check = |output: &str| match parsed(&format!("check s a b --table t {settings} {output}")) {
        Ok(Command::Check(arguments)) => Some(arguments),
        _ => None,
    };
    for (line, write) in [
        ("", false),
        ("--json", false),
        ("--quiet", false),
        ("--write", true),
    ] {
        let output = if write { "" } else { line };
        let check = check(output).unwrap();
        let asked = parsed(&format!("open s a b --table t {settings} {line}"));
        assert_eq!(asked, Ok(Command::Open(Opening { check, write })), "{line}");
    }
}

#[test]
fn errors_about_openings_say_what_was_expected() {
    assert_eq!(error("open"), "open: expected the files SCHEMA and RULE");
    assert_eq!(
        error("open s --semantics kernel/1"),
        "open: expected at least one file RULE after \"s\""
    );
    assert_eq!(
        error("open s - --table -"),
        "open: expected `-`, standard input, at most once"
    );
    for other in ["--json", "--quiet"] {
        let expected = "open: expected --write without --json and --quiet";
        assert_eq!(error(&format!("open s a --write {other}")), expected);
    }
    for option in ["--sarif", "--constants", "--reader kernel"] {
        let (name, _) = option.split_once(' ').unwrap_or((option, ""));
        let expected = format!("open: {name} is not an option of this command");
        assert_eq!(error(&format!("open s a {option}")), expected);
    }
}

#[test]
fn nothing_is_written_but_by_open() {
    for line in [
        "check s a",
        "path s a",
        "tally s b",
        "wall s b",
        "upgrade o n a",
        "widens o n",
        "show a",
        "instant a",
    ] {
        let (command, _) = line.split_once(' ').unwrap();
        let expected = format!("{command}: --write is not an option of this command");
        assert_eq!(error(&format!("{line} --write")), expected);
    }
}

#[test]
fn books_are_written_and_sheets_shown_from_files_alone() {
    let files = || vec!["a".into(), "-".into()];
    assert_eq!(parsed("book a -"), Ok(Command::Book(files())));
    assert_eq!(parsed("show a -"), Ok(Command::Show(files())));
    assert_eq!(parsed("to-json a -"), Ok(Command::ToJson(files())));
    assert_eq!(parsed("to-sheet -"), Ok(Command::ToSheet("-".into())));
    assert_eq!(error("to-sheet"), "to-sheet: expected at least one file");
    assert_eq!(error("to-sheet a b"), "to-sheet: expected one file alone");
    assert_eq!(error("book"), "book: expected at least one file RULE");
    assert_eq!(error("show"), "show: expected at least one file");
    for option in [
        "--json",
        "--quiet",
        "--kind invariant",
        "--label x",
        "--sarif",
    ] {
        let (name, _) = option.split_once(' ').unwrap_or((option, ""));
        for command in ["book", "show"] {
            let expected = format!("{command}: {name} is not an option of this command");
            assert_eq!(error(&format!("{command} a {option}")), expected);
        }
    }
}

#[test]
fn instants_are_any_words() {
    let expected = |texts: &[&str], json| {
        Ok(Command::Instants(Instants {
            texts: texts.iter().map(OsString::from).collect(),
            output: Output {
                json,
                ..Output::default()
            },
        }))
    };
    assert_eq!(
        parsed("instant 2024-02-29"),
        expected(&["2024-02-29"], false)
    );
    assert_eq!(
        parsed("instant --json - -- --x"),
        expected(&["-", "--x"], true)
    );
    assert_eq!(error("instant"), "instant: expected at least one TEXT");
    assert_eq!(
        error("instant --quiet --"),
        "instant: expected at least one TEXT"
    );
}

#[test]
fn commands_without_settings_take_none() {
    for option in [
        "--kind invariant",
        "--semantics kernel/1",
        "--reader kernel",
        "--label x",
        "--table t",
    ] {
        let (name, _) = option.split_once(' ').unwrap();
        for (command, words) in [("widens", "o n"), ("instant", "a")] {
            let expected = format!("{command}: {name} is not an option of this command");
            assert_eq!(error(&format!("{command} {words} {option}")), expected);
        }
    }
}

#[test]
fn every_listed_name_is_taken() {
    for command in COMMANDS {
        let told = parsed(command).err().unwrap_or_default();
        assert!(!told.contains("expected a command"), "{command}");
    }
    for option in FLAGS.into_iter().chain(OTHERS) {
        let told = parsed(&format!("check s r {option}"))
            .err()
            .unwrap_or_default();
        assert!(!told.contains("unknown option"), "{option}");
    }
}

#[test]
fn errors_say_what_was_expected() {
    let commands = "expected a command, one of `definition`, `check`, `tally`, `wall`, `book`, `path`, `open`, `widens`, `upgrade`, `instant`, `show`, `to-sheet`, `to-json`, `explain`, `table`";
    assert_eq!(error(""), commands);
    assert_eq!(
        error("chekc"),
        format!("{commands}, not \"chekc\"; did you mean `check`?")
    );
    assert_eq!(error("lace"), format!("{commands}, not \"lace\""));
    assert_eq!(
        error("table --json"),
        "table: expected nothing after it, not \"--json\""
    );
    assert_eq!(error("check"), "check: expected the files SCHEMA and RULE");
    assert_eq!(
        error("check s"),
        "check: expected at least one file RULE after \"s\""
    );
    assert_eq!(
        error("check s r --kind"),
        "--kind: expected a value after it"
    );
    assert_eq!(error("check s r --quiet=1"), "--quiet takes no value");
    assert_eq!(error("check s r -k"), "unknown option \"-k\"");
    assert_eq!(
        error("check s r --colour=no"),
        "unknown option \"--colour\""
    );
    assert_eq!(
        error("check s r --semantic kernel/1"),
        "unknown option \"--semantic\"; did you mean `--semantics`?"
    );
    assert!(error("check s r --kind preconditon").ends_with("; did you mean `precondition`?"));
    assert!(
        error("check s r --kind rule")
            .starts_with("--kind: \"rule\" is not a known kind; expected one of invariant,")
    );
    let without_semantics = error("check s r --kind invariant");
    assert!(
        without_semantics.starts_with("check: expected --semantics SEMANTICS, one of kernel/1,")
    );
    assert_eq!(
        error("check - - --kind invariant --semantics kernel/1"),
        "check: expected `-`, standard input, at most once"
    );
    assert_eq!(
        error("check s - --table - --kind invariant --semantics kernel/1"),
        "check: expected `-`, standard input, at most once"
    );
}

#[test]
fn two_schemas_and_rules_are_told_apart() {
    let pair = |quiet| Pair {
        old: "o".into(),
        new: "n".into(),
        output: Output {
            quiet,
            ..Output::default()
        },
    };
    assert_eq!(parsed("widens o n"), Ok(Command::Widens(pair(false))));
    assert_eq!(
        parsed("widens --quiet -- o n"),
        Ok(Command::Widens(pair(true)))
    );
    let settings = "--kind invariant --semantics kernel/1";
    let line = format!("upgrade o n a b --table t {settings}");
    let check = match parsed(&format!("check o a b --table t {settings}")) {
        Ok(Command::Check(arguments)) => Some(arguments),
        _ => None,
    };
    let expected = Upgrade {
        check: check.unwrap(),
        new: "n".into(),
    };
    assert_eq!(parsed(&line), Ok(Command::Upgrade(expected)));
}

#[test]
fn errors_about_two_schemas_say_what_was_expected() {
    for line in ["widens", "widens o", "widens o n x"] {
        assert_eq!(error(line), "widens: expected the files OLD and NEW");
    }
    assert_eq!(
        error("widens - -"),
        "widens: expected `-`, standard input, at most once"
    );
    for line in ["upgrade", "upgrade o"] {
        assert_eq!(error(line), "upgrade: expected the files OLD, NEW and RULE");
    }
    assert_eq!(
        error("upgrade o n --kind invariant"),
        "upgrade: expected at least one file RULE after \"n\""
    );
    assert_eq!(
        error("upgrade o - - --kind invariant --semantics kernel/1"),
        "upgrade: expected `-`, standard input, at most once"
    );
    assert!(error("upgrade o n r").starts_with("upgrade: expected --semantics SEMANTICS,"));
    assert_eq!(
        error("upgrade o n r --reader kernel"),
        "upgrade: --reader is not an option of this command"
    );
}
