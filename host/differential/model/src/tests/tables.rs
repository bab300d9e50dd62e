//! Name tables: what a mark changes, what is not a table, and loading.

use super::*;
use table::{load_table, NAMES, TABLE_BYTES};

const STOCK: &str = "N,1,1,1,1,1,1,0,0,0,0\n\
    N,2,1,1,1,1,0,1,1,1,1\n\
    N,3,1,1,1,1,1,1,0,0,0\n\
    N,4,1,1,1,1,1,1,1,1,1\n\
    N,5,1,1,1,1,0,0,1,1,0\n\
    N,6,1,1,1,0,0,0,0,1,0\n\
    N,7,1,1,1,0,1,1,0,1,0\n\
    N,8,1,1,1,1,1,1,0,1,0\n";

/// The stock table with another entry in place of one.
fn changed(old: &str, new: &str) -> String {
    assert_eq!(STOCK.matches(old).count(), 1, "{old}");
    STOCK.replace(old, new)
}

/// A template of one string, under a table.
fn ask_under(table: &str, kind: u64, text: &str) -> String {
    let sheet = format!("T\n{}", string(text));
    let call = Call {
        table: table.as_bytes(),
        ..call(kind, 2, SCHEMA, &sheet)
    };
    line(&check(&call))
}

#[test]
fn the_stock_table_is_what_a_check_goes_by_that_is_lent_none() {
    assert_eq!(Table::stock().write(), STOCK.as_bytes());
    assert_eq!(Table::decode(STOCK.as_bytes()), Some(Table::stock()));
    assert_eq!(Table::lent(b""), Some(Table::stock()));
    assert!(Table::stock().is_sound());
    for kind in 1..=8 {
        for name in NAMES.iter().chain(&["", "name", "field"]) {
            for tail in ["", ".s", "."] {
                let text = format!("${name}{tail}");
                assert_eq!(ask_under(STOCK, kind, &text), ask_under("", kind, &text));
            }
        }
    }
}

#[test]
fn a_mark_shows_or_hides_a_name() {
    let shown = changed("N,5,1,1,1,1,0,0,1,1,0", "N,5,1,1,1,1,1,0,1,1,0");
    assert_eq!(ask_under("", 5, "$state"), "18,1,12,2,0,0,r");
    assert_eq!(ask_under(&shown, 5, "$state"), "0,0,0,0,0,1,");
    // In the row of its kind alone.
    assert_eq!(ask_under(&shown, 2, "$state"), "18,1,12,2,0,0,r");
    // No path follows it still.
    assert_eq!(ask_under(&shown, 5, "$state.x"), "18,1,12,2,0,0,r");
    let hidden = changed("N,2,1,1,1,1,0,1,1,1,1", "N,2,1,1,1,1,0,0,1,1,1");
    assert_eq!(ask_under("", 2, "$to_state"), "0,0,0,0,0,1,");
    assert_eq!(ask_under(&hidden, 2, "$to_state"), "18,1,12,2,0,0,r");
}

#[test]
fn a_root_is_walked_where_its_mark_is_1() {
    let shown = changed("N,6,1,1,1,0,0,0,0,1,0", "N,6,1,1,1,1,0,0,0,1,1");
    for root in ["$fields", "$old_fields"] {
        let path = |path: &str| format!("{root}.{path}");
        assert_eq!(ask_under("", 6, &path("s")), "18,1,11,2,0,0,r");
        assert_eq!(ask_under(&shown, 6, &path("s")), "0,0,0,0,0,1,");
        assert_eq!(ask_under(&shown, 6, &path("q")), "18,1,2,2,0,0,r");
        assert_eq!(ask_under(&shown, 6, root), "0,0,0,0,0,1,");
    }
    let hidden = changed("N,6,1,1,1,0,0,0,0,1,0", "N,6,1,1,1,0,0,0,0,0,0");
    assert_eq!(ask_under("", 6, "$args.g"), "0,0,0,0,0,1,");
    assert_eq!(ask_under(&hidden, 6, "$args.g"), "18,1,11,2,0,0,r");
    assert_eq!(ask_under(&hidden, 6, "$args"), "18,1,12,2,0,0,r");
}

#[test]
fn arguments_that_are_not_there_stay_detail_11() {
    let shown = changed("N,1,1,1,1,1,1,0,0,0,0", "N,1,1,1,1,1,1,0,0,1,0");
    let sheet = format!("T\n{}", string("$args.x"));
    let call = Call {
        table: shown.as_bytes(),
        ..call(1, 2, "H,0,0,-,0\n", &sheet)
    };
    assert_eq!(line(&check(&call)), "18,1,11,2,0,0,r");
}

#[test]
fn a_binder_wins_over_a_mark() {
    let hidden = changed("N,2,1,1,1,1,0,1,1,1,1", "N,2,1,1,1,1,0,0,1,1,1");
    let sheet = rule(&for_all(
        "to_state",
        &string("$fields.a"),
        &exists("$to_state.s"),
    ));
    let call = Call {
        table: hidden.as_bytes(),
        ..call(2, 2, SCHEMA, &sheet)
    };
    assert_eq!(check(&call).number, 0);
}

#[test]
fn the_first_176_bytes_count() {
    let number = |table: &str| check_number(table.as_bytes());
    assert_eq!(STOCK.len(), TABLE_BYTES);
    assert_eq!(number(STOCK), 0);
    assert_eq!(number(&format!("{STOCK}\0")), 0);
    assert_eq!(number(&format!("{STOCK}N,9,2")), 0);
    for bytes in 1..TABLE_BYTES {
        assert_eq!(number(&STOCK[..bytes]), 37, "{bytes}");
    }
}

fn check_number(table: &[u8]) -> u32 {
    let sheet = format!("T\n{}", string("$id"));
    let call = Call {
        table,
        ..call(2, 2, SCHEMA, &sheet)
    };
    check(&call).number
}

/// Each byte of the stock table has one other value at most, that of its mark turned.
#[test]
fn no_other_byte_stands_in_a_table() {
    for at in 0..TABLE_BYTES {
        let is_mark = (4..=20).contains(&(at % 22)) && at % 2 == 0;
        for byte in 0..=255 {
            let mut table = STOCK.as_bytes().to_vec();
            table[at] = byte;
            let is_table = table == STOCK.as_bytes() || (is_mark && matches!(byte, b'0' | b'1'));
            assert_eq!(Table::decode(&table).is_some(), is_table, "{at} {byte}");
        }
    }
}

#[test]
fn what_is_no_table() {
    let rows: Vec<&str> = STOCK.split_inclusive('\n').collect();
    let swapped = [rows[1], rows[0]].concat() + &rows[2..].concat();
    for table in [
        "",
        "N,1\n",
        &swapped,
        &rows[1..].concat(),
        &format!("{STOCK}{}", rows[7]),
        &changed("N,3,", "N,03,"),
        &changed("N,3,1", "N,3,01"),
        &changed("N,3,1", "N,3,2"),
        &changed("N,3,1,", "N,3,"),
        &changed("N,3,1", "N,3,1,1"),
        &changed("N,3,1", "n,3,1"),
        &STOCK.replace('\n', "\r\n"),
        &STOCK.replace('\n', ",\n"),
    ] {
        assert_eq!(Table::decode(table.as_bytes()), None, "{table}");
    }
}

#[test]
fn both_conditions_hold_in_every_row() {
    for kind in 1..=8 {
        for mark in 0..3 {
            let mut table = Table::stock();
            table.0[kind - 1][mark] = false;
            assert_eq!(check_number(&table.write()), 38, "{kind} {mark}");
        }
        for [fields, old_fields] in [[false, false], [false, true], [true, false], [true, true]] {
            let mut table = Table::stock();
            table.0[kind - 1][3] = fields;
            table.0[kind - 1][8] = old_fields;
            let expected = if old_fields && !fields { 38 } else { 0 };
            assert_eq!(check_number(&table.write()), expected, "{kind}");
        }
    }
}

#[test]
fn loading_copies_a_table_or_keeps_the_old_one() {
    let good = changed("N,5,1,1,1,1,0,0,1,1,0", "N,5,1,1,1,1,1,0,1,1,0");
    let unsound = changed("N,5,1,1", "N,5,1,0");
    let malformed = format!("{good}\n");
    for length in [0, 1, 175, 176, 177, 300] {
        let before = vec![b'x'; length];
        for (table, number) in [(&good, 0), (&unsound, 38), (&malformed, 37)] {
            let number = if length < TABLE_BYTES { 37 } else { number };
            let mut buffer = before.clone();
            assert_eq!(load_table(table.as_bytes(), &mut buffer), number);
            let kept = if number == 0 { TABLE_BYTES } else { 0 };
            assert_eq!(buffer[..kept], table.as_bytes()[..kept]);
            assert_eq!(buffer[kept..], before[kept..]);
        }
    }
}
