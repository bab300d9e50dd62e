//! A second reading of the marks, written apart from the model's: flat over the entries of a sheet, three at a time, instants by their second reading.

use crate::readings::instants::second;

/// An entry of a rule sheet: its letter, its operator or type, its text.
struct Entry<'a> {
    letter: u8,
    sort: usize,
    text: &'a str,
}

/// The marks of a rule sheet that is well formed.
pub fn marks(sheet: &[u8]) -> Vec<u32> {
    let entries = entries(sheet);
    (1_u32..).zip(entries.windows(3)).filter_map(|(place, three)| mark(place, three)).collect()
}

fn mark(place: u32, three: &[Entry]) -> Option<u32> {
    let [condition, left, right] = three else {
        return None;
    };
    let [left, right] = [left, right].map(literal);
    let (earlier, later) = match (condition.letter, condition.sort) {
        (b'C', 6) => (left?, right?),
        (b'C', 7) => (right?, left?),
        _ => return None,
    };
    Some(place + place + if earlier < later { 1 } else { 0 })
}

/// The fields of a literal instant, year first.
fn literal(entry: &Entry) -> Option<[i64; 7]> {
    let is_literal = (entry.letter, entry.sort) == (b'V', 5) && entry.text.as_bytes().first() != Some(&b'$');
    let read = is_literal.then(|| second::parse(entry.text)).flatten()?;
    Some([read.year, read.month, read.day, read.hour, read.minute, read.second, read.nanosecond])
}

/// The entries of a rule; a template has none that count.
fn entries(sheet: &[u8]) -> Vec<Entry<'_>> {
    let (mut found, mut rest) = (Vec::new(), sheet);
    while let [letter @ (b'R' | b'C' | b'V' | b'K'), tail @ ..] = rest {
        let (mut tail, mut fields) = (&tail[1..], [0; 2]);
        for field in &mut fields[..if *letter == b'K' { 1 } else { 2 }] {
            let end = tail.iter().position(|byte| *byte == b',').expect("a comma after a numeral");
            *field = std::str::from_utf8(&tail[..end]).ok().and_then(|numeral| numeral.parse().ok()).unwrap_or(0);
            tail = &tail[end + 1..];
        }
        let length = match (letter, fields) {
            (b'R', [name, message]) => name + message,
            (b'K', [length, _]) | (b'C', [20 | 21, length]) | (b'V', [4 | 5, length]) => length,
            _ => 0,
        };
        let (text, behind) = tail.split_at(length);
        found.push(Entry { letter: *letter, sort: fields[0], text: std::str::from_utf8(text).expect("texts are UTF-8") });
        rest = &behind[1..];
    }
    found
}
