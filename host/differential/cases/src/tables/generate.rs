//! Random cases with a name table, and tables to load.

use crate::case::{Case, Expect};
use crate::generate::names::STOCK;
use crate::generate::profiles::{self, PROFILES as MAKERS};
use crate::generate::tables::{damage, lent, names, sound, unsound};
use crate::generate::{limits, setting};
use crate::limits::{REFUSALS, TABLE_BYTES};
use crate::random::Random;
use crate::tables::LoadCase;

/// A name, how often in a thousand cases it comes, and what makes it and says what it is a case of.
type Profile = (&'static str, usize, fn(&mut Random) -> (&'static str, Case));

pub const PROFILES: [Profile; 5] = [
    ("made for its table", 700, made_for_it),
    ("made for the stock table", 150, made_for_stock),
    ("refusals", 70, refusals),
    ("no table", 50, no_table),
    ("a condition broken", 30, broken),
];

/// A case of any profile that is lent a table, and the words for it.
pub fn case(random: &mut Random) -> (String, Case) {
    let mut ticket = random.below(1_000);
    for (name, share, make) in PROFILES {
        if ticket < share {
            let (of, case) = make(random);
            return (format!("{name}, {of}"), case);
        }
        ticket -= share;
    }
    unreachable!("the shares add up to a thousand")
}

/// A case of any sort whose rule reads the names that a sound table shows.
fn made_for_it(random: &mut Random) -> (&'static str, Case) {
    let names = names(random);
    let (profile, case) = profiles::case(random, &names);
    (MAKERS[profile].0, case)
}

/// A case whose rule reads the stock names, under another table. What is known of it then is that a refusal stays one.
fn made_for_stock(random: &mut Random) -> (&'static str, Case) {
    let (profile, case) = profiles::case(random, &STOCK);
    let table = sound(random);
    let expect = match case.expect {
        Expect::Number(number) if REFUSALS.contains(&number) => Expect::Number(number),
        Expect::Anything => Expect::Anything,
        _ => Expect::Read,
    };
    (MAKERS[profile].0, case.under(lent(random, &table)).expecting(expect))
}

fn refusals(random: &mut Random) -> (&'static str, Case) {
    let names = names(random);
    ("settings", limits::settings(random, &names))
}

/// The bytes may break a condition as well, which is not looked at.
fn no_table(random: &mut Random) -> (&'static str, Case) {
    let names = names(random);
    let mut case = setting::slips(random, &names);
    if random.chance(20) {
        unsound(random, &mut case.table);
    }
    damage(random, &mut case.table);
    ("slips", case.expecting(Expect::Number(37)))
}

fn broken(random: &mut Random) -> (&'static str, Case) {
    let names = names(random);
    let mut case = setting::slips(random, &names);
    unsound(random, &mut case.table);
    ("slips", case.expecting(Expect::Number(38)))
}

/// A table to load, or what is none, and a buffer that is long enough or not.
pub fn load(random: &mut Random) -> LoadCase {
    let mut table = sound(random).write();
    let is_unsound = random.chance(30);
    if is_unsound {
        unsound(random, &mut table);
    }
    let is_damaged = random.chance(35);
    match random.below(8) {
        _ if !is_damaged => {}
        0 => table.push(random.pick(b"\n\0N,")),
        1 => table.extend(table.clone()),
        2 => table.clear(),
        _ => damage(random, &mut table),
    }
    let any = random.below(MAX_BUFFER + 1);
    let buffer_len = random.pick(&[TABLE_BYTES, TABLE_BYTES, TABLE_BYTES, TABLE_BYTES + 1, MAX_BUFFER, any, TABLE_BYTES - 1, 0]);
    let number = match () {
        () if is_damaged || buffer_len < TABLE_BYTES => 37,
        () if is_unsound => 38,
        () => 0,
    };
    LoadCase { table, buffer_len, expect: Some(number) }
}

/// The longest buffer that a table is loaded into here.
pub const MAX_BUFFER: usize = 256;
