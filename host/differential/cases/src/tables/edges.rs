//! Checks under tables and loads whose answers are known: each mark shown and hidden, each byte of a table changed, every combination of refusals.

use crate::case::{Case, Expect};
use crate::edges::edges as stock_edges;
use crate::generate::build::{array, element, exists, field, holder, quantifier, rule, schema, text, ARRAY, INTEGER};
use crate::generate::limits::{refusals_of, refuse};
use crate::generate::names::ALL_NAMES;
use crate::generate::tables::{lent, place, sound};
use crate::limits::{REFUSALS, TABLE_BYTES};
use crate::random::Random;
use crate::tables::generate::MAX_BUFFER;
use crate::tables::LoadCase;
use model::table::Table;
use model::trees::{Field, Sheet};
use model::{write_rule, write_schema};

const FIELDS: usize = 3;
const ARGS: usize = 7;
const OLD_FIELDS: usize = 8;

/// All known edges of checks.
pub fn edges() -> Vec<Case> {
    [marks(), roots(), binders(), lengths(), bytes(), conditions(), combinations(), stock()].concat()
}

/// A closed record and closed arguments, each with an array `a`.
fn sheet() -> Vec<u8> {
    let fields = || holder(false, vec![Field { items: element(field("", INTEGER)), ..field("a", ARRAY) }]);
    write_schema(&schema(fields(), Some(fields())))
}

/// A template of one text.
fn template(kind: u64, reference: &str, table: Vec<u8>) -> Case {
    Case::new(kind, 1, b"t", sheet(), write_rule(&Sheet::Template(text(reference)))).under(table)
}

fn answered(case: Case, (number, detail): (u32, u32)) -> Case {
    case.expecting(if number == 18 { Expect::Detail(number, detail) } else { Expect::Number(number) })
}

/// The stock table with one mark set, and with `$fields` where it shows `$old_fields`.
fn with_mark(kind: u64, mark: usize, shown: bool) -> Table {
    let mut table = Table::stock();
    let row = &mut table.0[kind as usize - 1];
    row[mark] = shown;
    match mark {
        OLD_FIELDS => row[FIELDS] |= shown,
        FIELDS => row[OLD_FIELDS] &= shown,
        _ => {}
    }
    table
}

/// A table with the same row for the kind, and the others sound and turned where they can be.
fn others_turned(table: &Table, kind: u64) -> Table {
    let mut turned = *table;
    for (other, row) in (1..).zip(&mut turned.0) {
        if other != kind {
            row[FIELDS..].iter_mut().for_each(|mark| *mark = !*mark);
            row[OLD_FIELDS] &= row[FIELDS];
        }
    }
    turned
}

/// Each name without a path under each kind, shown and hidden, whatever the other rows say.
fn marks() -> Vec<Case> {
    let mut cases = Vec::new();
    for kind in 1..=8 {
        for (mark, name) in ALL_NAMES.iter().enumerate() {
            for shown in [true, false] {
                let table = with_mark(kind, mark, shown);
                let answer = match (shown, mark < FIELDS) {
                    (true, _) => (0, 0),
                    (false, false) => (18, 12),
                    (false, true) => (38, 0),
                };
                for table in [table, others_turned(&table, kind)] {
                    cases.push(answered(template(kind, &format!("${name}"), table.write()), answer));
                }
            }
        }
    }
    cases
}

/// Paths below each root under each kind, shown and hidden; a name that is not a root has no path, whatever its mark.
fn roots() -> Vec<Case> {
    let mut cases = Vec::new();
    for kind in 1..=8 {
        for (root, mark) in [("fields", FIELDS), ("args", ARGS), ("old_fields", OLD_FIELDS)] {
            for (path, shown, answer) in [
                ("a", true, (0, 0)),
                ("q", true, (18, 2)),
                ("", true, (18, 1)),
                ("a.x", true, (18, 10)),
                ("a", false, (18, 11)),
                ("q", false, (18, 11)),
                ("", false, (18, 11)),
            ] {
                let table = with_mark(kind, mark, shown).write();
                cases.push(answered(template(kind, &format!("${root}.{path}"), table), answer));
            }
            let bare = write_schema(&schema(holder(false, Vec::new()), None));
            let absent = template(kind, &format!("${root}.x"), with_mark(kind, mark, true).write());
            cases.push(answered(Case { schema: bare, ..absent }, (18, if root == "args" { 11 } else { 2 })));
        }
        for (mark, name) in ALL_NAMES.iter().enumerate().filter(|(mark, _)| ![FIELDS, ARGS, OLD_FIELDS].contains(mark)) {
            cases.push(answered(template(kind, &format!("${name}.x"), with_mark(kind, mark, true).write()), (18, 12)));
        }
    }
    cases
}

/// A binder of a name wins over its mark, and what `in` names is read by its own.
fn binders() -> Vec<Case> {
    let mut cases = Vec::new();
    for kind in 1..=8 {
        for (mark, name) in ALL_NAMES.iter().enumerate().skip(FIELDS) {
            for (root, root_mark) in [("fields", FIELDS), ("args", ARGS)] {
                let body = exists(array(vec![text(&format!("${name}"))]));
                let sheet_of = |reference: &str| rule(quantifier(20, name, text(reference), body.clone()));
                let mut table = with_mark(kind, mark, false);
                for shown in [true, false] {
                    table.0[kind as usize - 1][root_mark] = shown;
                    let sound = table.0[kind as usize - 1][FIELDS] || !table.0[kind as usize - 1][OLD_FIELDS];
                    let answer = match (sound, shown) {
                        (false, _) => (38, 0),
                        (_, true) => (0, 0),
                        (_, false) => (18, 11),
                    };
                    let case = Case::new(kind, 2, b"r", sheet(), write_rule(&sheet_of(&format!("${root}.a"))));
                    cases.push(answered(case.under(table.write()), answer));
                }
            }
        }
    }
    cases
}

/// A table cut at each length, and with bytes after it.
fn lengths() -> Vec<Case> {
    let table = with_mark(5, 4, true).write();
    let cut = (1..TABLE_BYTES).map(|bytes| answered(template(5, "$state", table[..bytes].to_vec()), (37, 0)));
    let longer = [0, 1, 2, 21, 22, 176, 1_000].map(|bytes| {
        let behind = [table.clone(), b"N,1,0".repeat(bytes)[..bytes].to_vec()].concat();
        answered(template(5, "$state", behind), (0, 0))
    });
    let none = answered(template(5, "$state", Vec::new()), (18, 12));
    cut.chain(longer).chain([none]).collect()
}

/// Each byte of a table changed: a mark to what is not a mark, any other byte to a mark, and each mark turned.
fn bytes() -> Vec<Case> {
    let table = Table::stock().write();
    let mut cases = Vec::new();
    for at in 0..TABLE_BYTES {
        let others: &[u8] = if table[at] == b'1' { b"02,\n" } else { b"12,\n" };
        for other in others.iter().filter(|other| **other != table[at]) {
            let mut changed = table.clone();
            changed[at] = *other;
            let is_mark = (4..=20).contains(&(at % 22)) && at % 2 == 0 && matches!(other, b'0' | b'1');
            let case = template(4, "$id", changed);
            cases.push(if is_mark { case } else { answered(case, (37, 0)) });
        }
    }
    cases
}

/// Each condition broken in each row, asked of each kind.
fn conditions() -> Vec<Case> {
    let mut cases = Vec::new();
    for row in 0..8 {
        for fault in 0..4 {
            let mut table = Table::stock().write();
            match fault {
                3 => {
                    table[place(row, FIELDS)] = b'0';
                    table[place(row, OLD_FIELDS)] = b'1';
                }
                mark => table[place(row, mark)] = b'0',
            }
            cases.extend((1..=8).map(|kind| answered(template(kind, "$entity", table.clone()), (38, 0))));
        }
    }
    cases
}

/// Each combination of the refusals, so that every pair comes in its order, called for in several ways.
fn combinations() -> Vec<Case> {
    let mut random = Random::new(5);
    let mut cases = Vec::new();
    for combination in 0..1_u32 << REFUSALS.len() {
        for _ in 0..6 {
            let table = sound(&mut random);
            let mut case = template(3, "$id", lent(&mut random, &table));
            let called = |(bit, _): &(usize, u32)| combination >> bit & 1 == 1;
            let wanted: Vec<u32> = refusals_of(&case).into_iter().enumerate().filter(called).map(|(_, refusal)| refusal).collect();
            for refusal in wanted.iter().rev() {
                refuse(&mut random, &mut case, *refusal);
            }
            cases.push(case.expecting(Expect::Number(wanted.first().copied().unwrap_or(0))));
        }
    }
    cases
}

/// The edges that are known without a table, under the stock table as it is written.
fn stock() -> Vec<Case> {
    stock_edges().into_iter().map(|case| case.under(Table::stock().write())).collect()
}

/// All known edges of loads: every length of a buffer and of a table, each byte changed, each condition broken.
pub fn loads() -> Vec<LoadCase> {
    let good = with_mark(5, 4, true).write();
    let unsound = conditions().into_iter().map(|case| case.table);
    let mut cases = Vec::new();
    let mut add = |table: Vec<u8>, buffer_len: usize, number: u32| cases.push(LoadCase { table, buffer_len, expect: Some(number) });
    for buffer_len in 0..=MAX_BUFFER {
        let fits = |number| if buffer_len < TABLE_BYTES { 37 } else { number };
        add(good.clone(), buffer_len, fits(0));
        let mut broken = good.clone();
        broken[place(buffer_len % 8, buffer_len % 3)] = b'0';
        add(broken, buffer_len, fits(38));
        add(good[1..].to_vec(), buffer_len, 37);
    }
    for bytes in (0..TABLE_BYTES).chain(TABLE_BYTES + 1..=2 * TABLE_BYTES) {
        add(good.repeat(2)[..bytes].to_vec(), TABLE_BYTES, 37);
    }
    for table in unsound {
        add(table, TABLE_BYTES, 38);
    }
    for case in bytes() {
        if case.expect == Expect::Number(37) {
            add(case.table, MAX_BUFFER, 37);
        }
    }
    cases
}
