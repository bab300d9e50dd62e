//! Random wall sheets: books of every sort, labels that bring paths to the end of the line or have bytes that are not printed, and buffers that are too short.

use crate::books::generate::case as book;
use crate::books::Expect;
use crate::random::Random;
use crate::walls::WallCase;
use model::sheets;

/// Pieces of a label, some of them with bytes outside 20 to 7E.
const PIECES: [&str; 12] = ["r", "mill", "rules[0]", ".", " ", "~", ">", "\u{1f}", "\u{7f}", "\n", "é", "日"];

/// A wall sheet, and the words for its book.
pub fn case(random: &mut Random) -> (&'static str, WallCase) {
    let (profile, mut book) = book(random);
    if random.chance(70) && book.expect != Expect::Refused(2) {
        book.label = label(random);
    }
    let count = sheets(&book.book).map_or(0, |sheets| sheets.len());
    let more = random.pick(&[0, 0, 0, 1, 80, 4_860, -1, -4_860]);
    let is_short = more < 0 && count > 0;
    let mut case = WallCase::new(&book, count, more);
    case.book.expect = match case.book.expect {
        Expect::Read(_) | Expect::Refused(37 | 38) if is_short => Expect::Refused(33),
        expect => expect,
    };
    (profile, case)
}

/// A label of about as many bytes as a line has for a path, or fewer.
fn label(random: &mut Random) -> Vec<u8> {
    let bytes = random.between(0, 60);
    let mut label = String::new();
    while label.len() < bytes {
        label.push_str(random.pick(&PIECES));
    }
    label.into_bytes()
}
