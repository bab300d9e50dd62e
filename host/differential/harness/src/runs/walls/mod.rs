//! Wall sheets: the pages of library and model, byte for byte; and what is on them, read again, against the tally of the same book.

pub mod run;
pub mod vectors;

use crate::library;
use crate::library::lent::Extent;
use crate::readings::refusals::wall_refusal;
use cases::books::{BookCase, Expect};
use cases::walls::{Printed, WallCase};
use model::{tally, wall, BookCall, TallyNumbers, PAGE_BYTES, PAGE_SHEETS, TALLY_BYTES};
use std::panic::catch_unwind;

/// What the model prints, compared with the library. An error says how they differ.
pub fn hold(case: &WallCase, extent: Extent) -> Result<Printed, String> {
    let printed = catch_unwind(|| wall(&case.call())).map_err(|_| "the model panics".to_owned())?;
    let (numbers, pages) = &printed;
    if !case.allows(*numbers) {
        return Err(format!("the book was made for {:?}, the model answers {numbers:?}", case.book.expect));
    }
    library::walls::hold(case, &printed, extent)?;
    let refused = u64::from(wall_refusal(case));
    if refused != numbers[0] {
        return Err(format!("the model answers {}, the second reading of the refusals {refused}", numbers[0]));
    }
    if numbers[0] == 0 {
        let counts = read_again(pages)?;
        let tally = tally(&BookCall { result_len: TALLY_BYTES, ..case.book.call() });
        if counts != tally {
            return Err(format!("the pages say {counts:?}, the tally {tally:?}"));
        }
    }
    Ok(printed)
}

/// What the lines of all pages add up to, after a look at their form: lines of 80 printable columns, headings and serials that count from 1, and feet that are right.
fn read_again(pages: &[u8]) -> Result<TallyNumbers, String> {
    let mut counts = [0; 18];
    for (at, page) in pages.chunks(PAGE_BYTES).enumerate() {
        let lines: Vec<&[u8]> = page.chunks(81).collect();
        let is_line = |line: &&[u8]| line.len() == 81 && line[80] == b'\n' && line[..80].iter().all(|byte| (0x20..=0x7E).contains(byte));
        if lines.len() != 60 || !lines.iter().all(is_line) {
            return Err(format!("page {} has not 60 lines of 80 columns", at + 1));
        }
        let before = counts;
        for line in &lines[1..59] {
            read_line(line, &mut counts).ok_or_else(|| format!("{:?} is not a line of a result", String::from_utf8_lossy(line)))?;
        }
        let ends = [format!("PAGE {:>5}", (at + 1) % 100_000), format!("ACCEPTED {:>2}", counts[2] - before[2])];
        let is_last = (at + 1) * PAGE_BYTES == pages.len();
        if [0, 59].map(|line| String::from_utf8_lossy(lines[line]).trim_end().to_owned()) != ends {
            return Err(format!("page {} has another heading or foot than {ends:?}", at + 1));
        }
        if !is_last && counts[1] - before[1] != PAGE_SHEETS as u64 || counts[1] == before[1] {
            return Err(format!("page {} has {} results", at + 1, counts[1] - before[1]));
        }
    }
    Ok(counts)
}

/// Counts one line, which may be blank.
fn read_line(line: &[u8], counts: &mut TallyNumbers) -> Option<()> {
    let text = std::str::from_utf8(&line[..80]).ok()?;
    if text.trim().is_empty() {
        return Some(());
    }
    let column = |from: usize, to: usize| text[from..to].trim_start().parse::<u64>().ok();
    let blanks = [5, 9, 12, 18, 24].iter().all(|at| line[*at] == b' ');
    let (serial, number, passed) = (column(0, 5)?, column(6, 9)?, column(19, 24)?);
    column(10, 12)?;
    column(13, 18)?;
    counts[1] += 1;
    let index = match number {
        0 => 2,
        4 => 3,
        5 => 4,
        11..=22 => number as usize - 6,
        _ => return None,
    };
    counts[index] += 1;
    counts[17] += passed;
    (blanks && serial == counts[1] % 100_000).then_some(())
}

/// Prints a disagreement as a small book, and answers with what is wrong.
pub fn report(case: &WallCase, trouble: &str, which: &str) -> String {
    println!("{which}: {trouble}");
    let fails = |case: &WallCase| hold(case, Extent::All).is_err();
    let free = BookCase { expect: Expect::Anything, ..case.book.clone() };
    let mut small = WallCase { book: free, ..case.clone() };
    if !fails(&small) {
        small = case.clone();
    }
    let candidates = |case: &WallCase| {
        let smaller = cases::books::candidates(&case.book).into_iter();
        smaller.map(|book| WallCase { book, ..case.clone() }).collect::<Vec<_>>()
    };
    while let Some(smaller) = candidates(&small).into_iter().find(fails) {
        small = smaller;
    }
    if let Err(trouble) = hold(&small, Extent::All) {
        println!("made smaller: {trouble}");
    }
    println!("a buffer of {} bytes for the pages", small.pages_len);
    small.book.print();
    "the library and the model do not agree".to_owned()
}
