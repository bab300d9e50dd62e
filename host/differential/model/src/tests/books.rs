//! Rule books: which files are some, and the tally.

use super::*;
use book::{sheets, tally, write_book, BookCall, TALLY_BYTES};

fn of<'a>(schema: &'a str, book: &'a [u8]) -> BookCall<'a> {
    BookCall {
        kind: 2,
        semantics: 2,
        label: b"r",
        table: b"",
        schema: schema.as_bytes(),
        book,
        path_len: PATH_BYTES,
        result_len: TALLY_BYTES,
    }
}

#[test]
fn files_that_are_books() {
    for (file, expected) in [
        ("", &[][..]),
        ("0,", &[""]),
        ("0,0,", &["", ""]),
        ("1,R", &["R"]),
        ("2,1,3,,,,", &["1,", ",,,"]),
        ("10,0123456789", &["0123456789"]),
    ] {
        let found = sheets(file.as_bytes()).unwrap();
        let wanted: Vec<&[u8]> = expected.iter().map(|sheet| sheet.as_bytes()).collect();
        assert_eq!(found, wanted, "{file}");
        assert_eq!(write_book(&wanted), file.as_bytes());
    }
}

#[test]
fn files_that_are_none() {
    for file in [
        ",",
        "R",
        "1",
        "1,",
        "2,R",
        "1,RR",
        "1,R\n",
        "1;R",
        "1 ,R",
        " 1,R",
        "+1,R",
        "-1,R",
        "01,R",
        "00,",
        "1,R,",
        "4294967297,R",
        "18446744073709551617,R",
        "340282366920938463463374607431768211457,R",
    ] {
        assert_eq!(sheets(file.as_bytes()), None, "{file}");
        assert_eq!(tally(&of(SCHEMA, file.as_bytes()))[..2], [34, 0], "{file}");
    }
}

#[test]
fn every_sheet_counts_once() {
    let book = write_book(&[
        rule("C,1,1,\n"),
        rule("C,2,0,\n"),
        String::new(),
        format!("T\n{}", string("$fields.nothing")),
        rule(&for_all("b", &string("$fields.s"), "C,1,1,\n")),
    ]);
    let numbers = tally(&of(SCHEMA, &book));
    let mut expected = [0; 18];
    for (index, count) in [(1, 5), (2, 1), (4, 1), (10, 1), (12, 1), (16, 1), (17, 14)] {
        expected[index] = count;
    }
    assert_eq!(numbers, expected);
    let under_no_schema = tally(&of("H", &book));
    assert_eq!(under_no_schema[..5], [0, 5, 0, 5, 0]);
    assert_eq!(under_no_schema[5..], [0; 13]);
}

#[test]
fn refusals_in_their_order() {
    let call = of(SCHEMA, b"1");
    let refused = |call: &BookCall| {
        let numbers = tally(call);
        assert_eq!(numbers[1..], [0; 17]);
        numbers[0]
    };
    let table = b"N";
    assert_eq!(
        refused(&BookCall {
            kind: 9,
            label: b"\xff",
            path_len: 0,
            ..call
        }),
        1
    );
    assert_eq!(
        refused(&BookCall {
            label: b"\xff",
            path_len: 0,
            ..call
        }),
        2
    );
    assert_eq!(
        refused(&BookCall {
            path_len: PATH_BYTES - 1,
            ..call
        }),
        3
    );
    assert_eq!(
        refused(&BookCall {
            result_len: TALLY_BYTES - 1,
            ..call
        }),
        3
    );
    assert_eq!(refused(&BookCall { table, ..call }), 34);
    assert_eq!(
        refused(&BookCall {
            table,
            book: b"",
            ..call
        }),
        37
    );
    let mut unsound = Table::stock().write();
    unsound[4] = b'0';
    assert_eq!(
        refused(&BookCall {
            table: &unsound,
            book: b"",
            ..call
        }),
        38
    );
    assert_eq!(
        refused(&BookCall {
            schema: b"",
            book: b"",
            ..call
        }),
        0
    );
}
