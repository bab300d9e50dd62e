//! Random name tables: sound ones, ones that break a condition, and bytes that are not a table.

use crate::generate::names::Names;
use crate::limits::TABLE_BYTES;
use crate::random::Random;
use model::table::Table;

const ROWS: usize = 8;
const ROW_BYTES: usize = 22;
const FIELDS: usize = 3;
const ARGS: usize = 7;
const OLD_FIELDS: usize = 8;

/// The byte of a mark.
pub fn place(row: usize, mark: usize) -> usize {
    row * ROW_BYTES + 4 + 2 * mark
}

/// The names of a sound table, and the bytes that it is lent as.
pub fn names(random: &mut Random) -> Names {
    let table = sound(random);
    let lent = lent(random, &table);
    Names::of(&table, lent)
}

/// A sound table, in which some kind reads the record or the arguments: the stock one, with a few marks turned in it, or random marks.
pub fn sound(random: &mut Random) -> Table {
    let mut table = Table::stock();
    let turned = random.between(1, 4);
    let often = random.pick(&[10, 50, 50, 85, 100]);
    match random.below(20) {
        0 => {}
        1..=8 => (0..turned).for_each(|_| turn(random, &mut table)),
        _ => table.0.iter_mut().flatten().for_each(|mark| *mark = random.chance(often)),
    }
    for row in &mut table.0 {
        row[..FIELDS].fill(true);
        if row[OLD_FIELDS] && !row[FIELDS] {
            let shows = random.chance(50);
            (row[FIELDS], row[OLD_FIELDS]) = (shows, shows);
        }
    }
    if !table.0.iter().any(|row| row[FIELDS] || row[ARGS]) {
        table.0[random.below(ROWS)][FIELDS] = true;
    }
    table
}

fn turn(random: &mut Random, table: &mut Table) {
    let mark = &mut table.0[random.below(ROWS)][random.between(FIELDS, OLD_FIELDS)];
    *mark = !*mark;
}

/// The bytes of a table, in a quarter of the cases with others after them.
pub fn lent(random: &mut Random, table: &Table) -> Vec<u8> {
    let mut bytes = table.write();
    if random.chance(25) {
        let behind = random.pick(&[1, 2, ROW_BYTES, TABLE_BYTES, 300]);
        let again = bytes.repeat(2);
        match random.below(3) {
            0 => bytes.extend(again.into_iter().take(behind)),
            1 => bytes.extend((0..behind).map(|_| random.bits() as u8)),
            _ => bytes.resize(TABLE_BYTES + behind, 0),
        }
    }
    bytes
}

/// Other bytes that mean the same to a check: none, in half of the cases where it is the stock table.
pub fn lent_again(random: &mut Random, bytes: &[u8]) -> Vec<u8> {
    let table = Table::lent(bytes).expect("what is lent here is a table");
    if table == Table::stock() && random.chance(50) {
        Vec::new()
    } else {
        lent(random, &table)
    }
}

/// Makes a table break a condition in some rows: a name that every kind reads is hidden, or `$old_fields` shown where `$fields` is not.
pub fn unsound(random: &mut Random, table: &mut [u8]) {
    for _ in 0..random.between(1, 2) {
        let row = random.below(ROWS);
        match random.below(5) {
            mark if mark < FIELDS => table[place(row, mark)] = b'0',
            _ => {
                table[place(row, FIELDS)] = b'0';
                table[place(row, OLD_FIELDS)] = b'1';
            }
        }
    }
}

/// What is done to a table so that it is none.
pub const DAMAGES: [fn(&mut Random, &mut Vec<u8>); 10] = [
    |random, table| table.truncate(random.between(1, TABLE_BYTES - 1)),
    |_, table| table.truncate(TABLE_BYTES - 1),
    // There is no mark there.
    |random, table| {
        let row = random.below(ROWS) * ROW_BYTES;
        let at = row + random.pick(&[0, 1, 2, 3, 5, 7, 9, 11, 13, 15, 17, 19, 21]);
        table[at] = other(random, table[at]);
    },
    |random, table| {
        let (row, mark) = (random.below(ROWS), random.below(9));
        table[place(row, mark)] = random.pick(b"2-9,/: \n\0\xff");
    },
    // The kinds no longer rise.
    |random, table| {
        let row = random.between(1, ROWS - 1) * ROW_BYTES;
        table[..row + ROW_BYTES].rotate_right(ROW_BYTES);
    },
    |random, table| {
        let row = random.below(ROWS) * ROW_BYTES;
        table[row + 2] = random.pick(&[b'0', b'9', table[row + 2] ^ 1, b'N']);
    },
    |random, table| {
        let row = random.below(ROWS) * ROW_BYTES;
        table.drain(row..row + ROW_BYTES);
    },
    // Neighbours in a table are never of one sort, so what follows is out of its place.
    |random, table| {
        let at = random.below(TABLE_BYTES - 1);
        table.insert(at, random.pick(b"01,N\n\r 2"));
    },
    |random, table| {
        table.remove(random.below(TABLE_BYTES - 1));
    },
    // A zero before a kind or a mark, a comma or a return before the end of an entry.
    |random, table| {
        let row = random.below(ROWS - 1) * ROW_BYTES;
        let (at, byte) = random.pick(&[(2, b'0'), (4, b'0'), (20, b'0'), (21, b','), (21, b'\r')]);
        table.insert(row + at, byte);
    },
];

/// Makes a table none, in one of these ways.
pub fn damage(random: &mut Random, table: &mut Vec<u8>) {
    random.pick(&DAMAGES)(random, table);
}

fn other(random: &mut Random, byte: u8) -> u8 {
    let others: Vec<u8> = [b"NnM,.;\n\r0123456789".as_slice(), &[byte ^ 0x20, byte ^ 0x80]].concat();
    let others: Vec<u8> = others.into_iter().filter(|other| *other != byte).collect();
    random.pick(&others)
}

#[cfg(test)]
mod tests {
    use super::*;

    fn made(random: &mut Random) -> Vec<u8> {
        let table = sound(random);
        lent(random, &table)
    }

    #[test]
    fn sound_tables_are_sound_and_unsound_ones_are_not() {
        let mut random = Random::new(1);
        for _ in 0..2_000 {
            let mut table = made(&mut random);
            assert!(Table::lent(&table).is_some_and(|table| table.is_sound()));
            unsound(&mut random, &mut table);
            assert!(Table::lent(&table).is_some_and(|table| !table.is_sound()));
        }
    }

    #[test]
    fn no_damaged_table_is_one() {
        let mut random = Random::new(2);
        for damage in DAMAGES {
            for _ in 0..2_000 {
                let mut table = made(&mut random);
                damage(&mut random, &mut table);
                assert_eq!(Table::lent(&table), None, "{}", String::from_utf8_lossy(&table));
            }
        }
    }
}
