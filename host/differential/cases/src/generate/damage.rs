//! Sheets that are nearly well formed: bytes and lines changed, numerals made too long, texts cut.

use crate::case::{Case, Expect};
use crate::generate::names::Names;
use crate::generate::{members, planted};
use crate::random::Random;

/// Bytes that matter in a sheet, and some that are not UTF-8.
const BYTES: [u8; 24] = *b"\n,-0123456789HFRTCVK.$\xc3\xff";

pub fn case(random: &mut Random, names: &Names) -> Case {
    let mut case = if random.chance(50) { super::setting::slips(random, names) } else { planted::case(random, names) };
    if let Some(case) = random.chance(20).then(|| members::key_twice(random, &case)).flatten() {
        return case;
    }
    for _ in 0..random.between(1, 2) {
        let in_schema = random.chance(40);
        let sheet = if in_schema { &mut case.schema } else { &mut case.rule };
        damage(random, sheet);
    }
    case.expecting(Expect::Anything)
}

/// One change to a sheet.
pub fn damage(random: &mut Random, sheet: &mut Vec<u8>) {
    if sheet.is_empty() {
        return;
    }
    let at = random.below(sheet.len());
    match random.below(9) {
        0 => sheet[at] = random.pick(&BYTES),
        1 => sheet[at] = random.bits() as u8,
        2 => sheet.insert(at, random.pick(&BYTES)),
        3 => drop(sheet.remove(at)),
        4 => sheet.truncate(at),
        5 => sheet.swap(at, 0),
        6 => repeat_or_drop_line(random, sheet),
        _ => change_numeral(random, sheet),
    }
}

/// The ranges of the lines. Texts may hold line ends, so a line need not be an entry.
fn lines(sheet: &[u8]) -> Vec<std::ops::Range<usize>> {
    let mut start = 0;
    let ends = sheet.iter().enumerate().filter(|(_, byte)| **byte == b'\n').map(|(at, _)| at + 1);
    ends.map(|end| std::mem::replace(&mut start, end)..end).collect()
}

fn repeat_or_drop_line(random: &mut Random, sheet: &mut Vec<u8>) {
    let lines = lines(sheet);
    if lines.is_empty() {
        return;
    }
    let line = random.pick(&lines);
    let text = sheet[line.clone()].to_vec();
    let into = random.pick(&lines).start;
    match random.below(3) {
        0 => drop(sheet.drain(line)),
        1 => drop(sheet.splice(into..into, text)),
        _ => {
            // Moved: sibling names may then no longer rise.
            sheet.drain(line);
            let into = into.min(sheet.len());
            sheet.splice(into..into, text);
        }
    }
}

/// A run of digits made larger or smaller by one, longer, or one that wraps to itself in 32 or 64 bits.
fn change_numeral(random: &mut Random, sheet: &mut Vec<u8>) {
    let is_digit = |at: &usize| sheet[*at].is_ascii_digit();
    let starts: Vec<usize> = (0..sheet.len()).filter(|at| is_digit(at) && (*at == 0 || !is_digit(&(at - 1)))).collect();
    if starts.is_empty() {
        return;
    }
    let start = random.pick(&starts);
    let end = (start..sheet.len()).find(|at| !is_digit(at)).unwrap_or(sheet.len());
    let old: u128 = String::from_utf8_lossy(&sheet[start..end]).parse().unwrap_or(7);
    let new = match random.below(8) {
        0 => (old + 1).to_string(),
        1 => old.saturating_sub(1).to_string(),
        2 => (old + (1 << 32)).to_string(),
        3 => (old + (1 << 64)).to_string(),
        4 => format!("0{old}"),
        5 => format!("{old}{}", "0".repeat(random.between(1, 40))),
        6 => "-".to_owned(),
        _ => String::new(),
    };
    sheet.splice(start..end, new.into_bytes());
}
