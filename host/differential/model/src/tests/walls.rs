//! The wall sheet, line by line.

use super::*;
use book::{write_book, BookCall};
use wall::{wall, WallCall, PAGE_BYTES, PAGE_SHEETS, WALL_BYTES};

fn of<'a>(label: &'a [u8], book: &'a [u8]) -> WallCall<'a> {
    let book = BookCall {
        kind: 2,
        semantics: 2,
        label,
        table: b"",
        schema: b"H,0,1,-,0\nF,1,0,0,0,1,-,s\n",
        book,
        path_len: PATH_BYTES,
        result_len: WALL_BYTES,
    };
    WallCall {
        book,
        pages_len: 1 << 30,
    }
}

/// The lines of all pages, each of which has 80 columns.
fn lines(label: &[u8], sheets: &[String]) -> Vec<String> {
    let book = write_book(sheets);
    let (numbers, pages) = wall(&of(label, &book));
    assert_eq!(numbers, [0, sheets.len().div_ceil(PAGE_SHEETS) as u64]);
    assert_eq!(pages.len(), numbers[1] as usize * PAGE_BYTES);
    let text = String::from_utf8(pages).unwrap();
    assert!(text.is_ascii());
    let lines: Vec<String> = text.lines().map(str::to_owned).collect();
    assert!(lines.iter().all(|line| line.len() == 80));
    assert_eq!(lines.len() % 60, 0);
    lines
}

fn accepted() -> String {
    rule("C,1,1,\n")
}

/// A template whose path is the label alone.
fn unread() -> String {
    format!("T\n{}", string("$nothing"))
}

#[test]
fn a_page_of_four_sheets() {
    let sheets = [
        accepted(),
        unread(),
        String::new(),
        rule(&for_all("b", &string("$fields.s"), "C,1,1,\n")),
    ];
    let lines = lines(b"mill", &sheets);
    assert_eq!(lines.len(), 60);
    assert_eq!(lines[0].trim_end(), "PAGE     1");
    assert_eq!(lines[1].trim_end(), "    1   0  0     0     4");
    assert_eq!(lines[2].trim_end(), "    2  18  1     2     0 mill");
    assert_eq!(lines[3].trim_end(), "    3   5  0     0     0");
    assert_eq!(
        lines[4].trim_end(),
        "    4  22  7     2     6 mill.assert.for_all"
    );
    assert!(lines[5..59].iter().all(|line| line.trim_end().is_empty()));
    assert_eq!(lines[59].trim_end(), "ACCEPTED  1");
}

#[test]
fn columns_stand_where_they_should() {
    let lines = lines(b"mill", &[unread()]);
    assert_eq!(&lines[1][..25], "    1  18  1     2     0 ");
    assert_eq!(&lines[1][25..], format!("{:<55}", "mill"));
}

#[test]
fn pages_of_58_sheets() {
    assert!(lines(b"", &[]).is_empty());
    for (sheets, last) in [(1, 1), (57, 57), (58, 58), (59, 1), (116, 58), (117, 1)] {
        let lines = lines(b"r", &vec![accepted(); sheets]);
        let page = lines.chunks(60).last().unwrap();
        let number = sheets.div_ceil(58);
        assert_eq!(page[0].trim_end(), format!("PAGE {number:>5}"));
        assert_eq!(page[59].trim_end(), format!("ACCEPTED {last:>2}"));
        assert_eq!(
            page[last].trim_end(),
            format!("{sheets:>5}   0  0     0     4")
        );
        assert!(page[last + 1..59]
            .iter()
            .all(|line| line.trim_end().is_empty()));
    }
}

#[test]
fn the_serial_shows_its_last_five_digits() {
    let lines = lines(b"r", &vec![String::new(); 100_002]);
    let result = |serial: usize| &lines[(serial - 1) / 58 * 60 + 1 + (serial - 1) % 58][..9];
    assert_eq!(result(9), "    9   5");
    assert_eq!(result(10), "   10   5");
    assert_eq!(result(99_999), "99999   5");
    assert_eq!(result(100_000), "00000   5");
    assert_eq!(result(100_001), "00001   5");
    assert_eq!(lines[lines.len() - 60].trim_end(), "PAGE  1725");
}

#[test]
fn long_paths_are_cut_in_column_80() {
    for (length, shown) in [
        (54, format!("{} ", "p".repeat(54))),
        (55, "p".repeat(55)),
        (56, format!("{}>", "p".repeat(54))),
        (256, format!("{}>", "p".repeat(54))),
    ] {
        let lines = lines(&vec![b'p'; length], &[unread()]);
        assert_eq!(lines[1][25..], shown);
    }
}

#[test]
fn bytes_that_are_not_printable_show_as_marks() {
    let lines = lines("\u{1f} ~\u{7f}\n\té\u{1F600}.".as_bytes(), &[unread()]);
    assert_eq!(lines[1][25..].trim_end(), "? ~?????????.");
    // A character that is cut in two shows as one mark there, and the sign of the cut is none of its bytes.
    let label = format!("{}é", "p".repeat(53));
    let cut = format!("{label}x");
    assert_eq!(lines_of(label.as_bytes()), format!("{}??", "p".repeat(53)));
    assert_eq!(lines_of(cut.as_bytes()), format!("{}?>", "p".repeat(53)));
}

fn lines_of(label: &[u8]) -> String {
    lines(label, &[unread()])[1][25..].to_owned()
}

#[test]
fn refusals_in_their_order() {
    let refused = |call: &WallCall| {
        let (numbers, pages) = wall(call);
        assert_eq!((numbers[1], pages.len()), (0, 0));
        numbers[0]
    };
    let book = write_book(&vec![accepted(); 59]);
    let short = WallCall {
        pages_len: 2 * PAGE_BYTES - 1,
        ..of(b"r", &book)
    };
    let with = |book: BookCall<'static>| WallCall { book, pages_len: 0 };
    let bad = BookCall {
        table: b"N",
        ..of(b"r", b"1").book
    };
    assert_eq!(
        refused(&with(BookCall {
            kind: 9,
            label: b"\xff",
            path_len: 0,
            ..bad
        })),
        1
    );
    assert_eq!(
        refused(&with(BookCall {
            label: b"\xff",
            path_len: 0,
            ..bad
        })),
        2
    );
    assert_eq!(
        refused(&with(BookCall {
            path_len: PATH_BYTES - 1,
            ..bad
        })),
        3
    );
    assert_eq!(
        refused(&with(BookCall {
            result_len: WALL_BYTES - 1,
            ..bad
        })),
        3
    );
    assert_eq!(refused(&with(bad)), 34);
    assert_eq!(
        refused(&WallCall {
            book: BookCall {
                table: b"N",
                ..short.book
            },
            ..short
        }),
        33
    );
    assert_eq!(refused(&short), 33);
    assert_eq!(
        wall(&WallCall {
            pages_len: 2 * PAGE_BYTES,
            ..short
        })
        .0,
        [0, 2]
    );
    assert_eq!(refused(&with(BookCall { book: b"", ..bad })), 37);
    // No sheet, no page, and no need for a buffer, whatever the schema is.
    assert_eq!(
        wall(&with(BookCall {
            book: b"",
            table: b"",
            schema: b"",
            ..bad
        })),
        ([0, 0], Vec::new())
    );
}

#[test]
fn a_bad_schema_is_told_for_every_sheet() {
    let book = write_book(&[accepted(), String::new()]);
    let call = of(b"r", &book);
    let (_, pages) = wall(&WallCall {
        book: BookCall {
            schema: b"H",
            ..call.book
        },
        ..call
    });
    let text = String::from_utf8(pages).unwrap();
    let lines: Vec<&str> = text.lines().map(str::trim_end).collect();
    assert_eq!(
        lines[1..3],
        ["    1   4  0     0     0", "    2   4  0     0     0"]
    );
    assert_eq!(lines[59], "ACCEPTED  0");
}
