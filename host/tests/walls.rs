//! The fixed list of wall sheets (host/vectors/walls.txt) replayed through the crate, and what a person sees on a page.

mod support;

use entity_rules::limits::{PAGE_BYTES, PAGE_SHEETS, PATH_BYTES, WALL_BYTES};
use entity_rules::{Book, Check, Kind, Refusal, Semantics, raw, tally, wall};
use std::collections::BTreeSet;
use support::tool::{folder, mill, run};
use support::{line, list, numbers, take};

const SCHEMA: &[u8] = b"H,0,0,-,0\n";
const ACCEPTED: &str = "R,-,-,\nC,1,1,\n";
/// A template whose path is the label alone.
const UNREAD: &str = "T\nV,5,8,$nothing\n";

/// One book of the list: what is handed over, and what is printed.
struct Case<'a> {
    kind: u64,
    semantics: u64,
    label: &'a [u8],
    table: &'a [u8],
    schema: &'a [u8],
    book: &'a [u8],
    room: usize,
    number: u32,
    pages: Vec<u8>,
}

/// Calls the function on every book of the list.
fn for_each_case(mut look: impl FnMut(&Case)) {
    let list = list("walls.txt");
    let mut rest = list.as_slice();
    let mut count = 0;
    while !rest.is_empty() {
        let all = numbers(line(&mut rest));
        let [
            kind,
            semantics,
            label,
            table,
            schema,
            book,
            room,
            number,
            pages,
        ] = all[..]
        else {
            panic!("a case has nine numbers");
        };
        let label = take(&mut rest, label);
        assert_eq!(take(&mut rest, 1), b"\n");
        let [table, schema, book] = [table, schema, book].map(|count| take(&mut rest, count));
        assert_eq!(take(&mut rest, 1), b"\n");
        let lines = (0..60 * pages).map(|_| format!("{:<80}\n", line(&mut rest)));
        let pages = lines.collect::<String>().into_bytes();
        look(&Case {
            kind,
            semantics,
            label,
            table,
            schema,
            book,
            room: room as usize,
            number: number as u32,
            pages,
        });
        count += 1;
    }
    assert_eq!(count, 117);
}

#[test]
fn the_c_function_prints_every_case_and_keeps_the_other_bytes() {
    let mut seen = BTreeSet::new();
    for_each_case(|case| {
        seen.insert(case.number);
        let (mut path, mut result) = (vec![0xAA; PATH_BYTES + 3], [0xBB; WALL_BYTES + 5]);
        let mut pages = vec![0xCC; case.room];
        let number = raw::wall(
            case.kind,
            case.semantics,
            case.label,
            case.table,
            case.schema,
            case.book,
            &mut path,
            &mut pages,
            &mut result,
        );
        assert_eq!(number, case.number);
        let count = (case.pages.len() / PAGE_BYTES) as u64;
        let found = [0, 1].map(|index| raw::count(&result, index));
        assert_eq!(found, [u64::from(number), count]);
        let (printed, after) = pages.split_at(case.pages.len());
        assert_eq!(printed, case.pages);
        assert!(after.iter().all(|&byte| byte == 0xCC));
        let free = if number == 0 { PATH_BYTES } else { 0 };
        assert!(path[free..].iter().all(|&byte| byte == 0xAA));
        assert_eq!(result[WALL_BYTES..], [0xBB; 5]);
    });
    assert!(seen.into_iter().eq([0, 1, 2, 33, 34, 37, 38]));
}

#[test]
fn the_typed_function_prints_every_case() {
    for_each_case(|case| {
        let kind = case.kind.try_into().ok().and_then(Kind::from_number);
        let semantics = case
            .semantics
            .try_into()
            .ok()
            .and_then(Semantics::from_number);
        let Some((kind, semantics)) = kind.zip(semantics) else {
            assert_eq!(case.number, 1);
            return;
        };
        let check = Check::new(kind, semantics, case.label).table(case.table);
        let printed = check.wall(case.schema, case.book);
        if case.number == 33 {
            // Its buffer is never too short, so that only what is tried after that is refused.
            let tables = [Refusal::TableForm, Refusal::TableMark];
            assert!(printed.map_or_else(|refusal| tables.contains(&refusal), |_| true));
            return;
        }
        match printed {
            Err(refusal) => assert_eq!(refusal.number(), case.number),
            Ok(pages) => assert_eq!((pages.as_bytes(), 0), (&case.pages[..], case.number)),
        }
    });
}

fn lines(label: &str, sheets: &[&str]) -> Vec<String> {
    let book: Book = sheets.iter().collect();
    let pages = wall(Kind::Invariant, Semantics::Kernel1, label, SCHEMA, &book);
    let pages = pages.expect("pages");
    assert!(pages.is_ascii());
    let lines: Vec<String> = pages.lines().map(str::to_owned).collect();
    assert!(lines.iter().all(|line| line.len() == 80));
    lines
}

#[test]
fn pages_have_58_sheets() {
    assert!(lines("r", &[]).is_empty());
    for (sheets, pages, last) in [
        (1, 1, 1),
        (57, 1, 57),
        (58, 1, 58),
        (59, 2, 1),
        (116, 2, 58),
        (117, 3, 1),
    ] {
        let lines = lines("r", &vec![ACCEPTED; sheets]);
        assert_eq!(lines.len(), 60 * pages);
        let page = &lines[60 * (pages - 1)..];
        assert_eq!(page[0].trim_end(), format!("PAGE {pages:>5}"));
        assert_eq!(
            page[last].trim_end(),
            format!("{sheets:>5}   0  0     0     4")
        );
        assert!(
            page[last + 1..59]
                .iter()
                .all(|line| line.trim_end().is_empty())
        );
        assert_eq!(page[59].trim_end(), format!("ACCEPTED {last:>2}"));
    }
}

#[test]
fn paths_are_cut_in_the_last_column() {
    for (bytes, shown) in [(54, 54), (55, 55), (56, 54), (256, 54)] {
        let lines = lines(&"p".repeat(bytes), &[UNREAD]);
        let cut = if bytes > 55 { ">" } else { "" };
        let path = format!("{}{cut}", "p".repeat(shown));
        assert_eq!(
            lines[1],
            format!("{:<80}", format!("    1  18  1     2     0 {path}"))
        );
    }
}

#[test]
fn bytes_that_are_not_printable_show_as_marks() {
    let lines = lines("\u{1f} ~\u{7f}\né日>", &[UNREAD]);
    assert_eq!(lines[1].trim_end(), "    1  18  1     2     0 ? ~???????>");
}

#[test]
fn serials_show_their_last_five_digits() {
    let sheets = vec![""; 100_002];
    let lines = lines("r", &sheets);
    let result = |serial: usize| lines[(serial - 1) / 58 * 60 + 1 + (serial - 1) % 58].trim_end();
    assert_eq!(result(99_999), "99999   5  0     0     0");
    assert_eq!(result(100_000), "00000   5  0     0     0");
    assert_eq!(result(100_001), "00001   5  0     0     0");
    assert_eq!(lines.len(), 100_002_usize.div_ceil(PAGE_SHEETS) * 60);
}

#[test]
fn the_feet_add_up_to_the_tally() {
    let book = Book::read(include_bytes!("../examples/mill/mill.book")).expect("a book");
    let sheets: Vec<&[u8]> = book
        .iter()
        .map(|sheet| sheet.bytes)
        .cycle()
        .take(500)
        .collect();
    let book: Book = sheets.iter().collect();
    let schema = include_bytes!("../examples/mill/pattern.schema");
    let settings = (Kind::Precondition, Semantics::Service1);
    let pages = wall(settings.0, settings.1, "mill", schema, &book).expect("pages");
    let feet = pages
        .lines()
        .filter_map(|line| line.strip_prefix("ACCEPTED "));
    let sum: u64 = feet
        .map(|count| count.trim().parse::<u64>().expect("a count"))
        .sum();
    let tally = tally(settings.0, settings.1, "mill", schema, &book).expect("a tally");
    assert_eq!(sum, tally.accepted);
}

#[test]
fn what_is_no_book_is_refused() {
    let refused = wall(Kind::Invariant, Semantics::Kernel1, "r", SCHEMA, b"1");
    assert_eq!(refused, Err(Refusal::BookForm));
    let long = "l".repeat(257);
    let refused = wall(Kind::Invariant, Semantics::Kernel1, long, SCHEMA, b"0,");
    assert_eq!(refused, Err(Refusal::Label));
}

const SETTINGS: &str = "--kind precondition --semantics service/1";

#[test]
fn the_tool_prints_the_page_that_the_documents_show() {
    let output = run(
        &mill(),
        &format!("wall pattern.schema mill.book {SETTINGS}"),
    );
    assert!(output.stderr.is_empty());
    assert_eq!(output.status.code(), Some(2));
    assert_eq!(output.stdout, include_bytes!("../../docs/wall-sheet.txt"));
    let readme = include_str!("../README.md");
    let (_, shown) = readme
        .split_once("$ entity-rules wall ")
        .expect("an example");
    let (_, shown) = shown.split_once('\n').expect("a command");
    let (shown, _) = shown.split_once("```").expect("the end of the example");
    let printed = String::from_utf8_lossy(&output.stdout).into_owned();
    let mut lines = printed.lines().map(str::trim_end);
    for line in shown.lines().filter(|line| *line != "...") {
        assert!(lines.any(|printed| printed == line), "{line}");
    }
}

#[test]
fn the_tool_says_on_standard_error_what_is_no_page() {
    let folder = folder("walls");
    let file = |name: &str, bytes: &str| std::fs::write(folder.join(name), bytes).expect("a file");
    file("s", "H,0,0,-,0\n");
    file("none", "");
    file("bad", "1");
    file("good", "0,");
    let told = |words: &str| {
        let output = run(&folder, &format!("wall {words} {SETTINGS}"));
        let err = String::from_utf8_lossy(&output.stderr).into_owned();
        (output.status.code(), output.stdout.len(), err)
    };
    let nothing = "entity-rules: none: no sheets, nothing to check\n";
    assert_eq!(told("s none"), (Some(0), 0, nothing.to_owned()));
    let refused = "entity-rules: bad:1: refused 34 (book form): sheet 1, byte 1: expected a comma after the length\n";
    assert_eq!(told("s bad"), (Some(2), 0, refused.to_owned()));
    let (status, bytes, err) = told("s missing");
    assert_eq!((status, bytes), (Some(2), 0));
    assert!(err.starts_with(
        "entity-rules: missing: unreadable: expected a file that holds a rule book: "
    ));
    let schema = "entity-rules: bad:1: refused 4 (schema sheet): entry 1, byte 0: expected `H`, which begins a schema sheet\n";
    assert_eq!(told("bad good"), (Some(2), PAGE_BYTES, schema.to_owned()));
    assert_eq!(
        told("s good --label x"),
        (Some(2), PAGE_BYTES, String::new())
    );
}
