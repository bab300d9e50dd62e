//! Rule books: the tally of library and model, compared with what single checks add up to, on which library, model and Rust agree.

pub mod run;
pub mod vectors;

use crate::library;
use crate::library::lent::Extent;
use crate::readings::refusals::book_refusal;
use crate::runs::agreement::{self, Held};
use crate::runs::compare;
use cases::books::{candidates, BookCase, Expect};
use model::{book, sheets, tally, write_book, Answer, TallyNumbers};
use std::collections::BTreeMap;
use std::panic::catch_unwind;

/// The model's numbers, compared with the library's. An error says how they differ.
pub fn hold(case: &BookCase, extent: Extent) -> Result<TallyNumbers, String> {
    let numbers = catch_unwind(|| tally(&case.call())).map_err(|_| "the model panics".to_owned())?;
    if !case.expect.allows(&numbers) {
        return Err(format!("the book was made for {:?}, the model answers {numbers:?}", case.expect));
    }
    library::books::hold(case, &numbers, extent)?;
    let refused = u64::from(book_refusal(case));
    if refused != numbers[0] {
        return Err(format!("the model answers {}, the second reading of the refusals {refused}", numbers[0]));
    }
    match numbers[0] {
        0 => counts(case, &numbers)?,
        _ if numbers[1..] != [0; 17] => return Err(format!("a refusal with more than its number: {numbers:?}")),
        _ => {}
    }
    Ok(numbers)
}

/// What holds of every tally, whatever single checks say.
fn counts(case: &BookCase, numbers: &TallyNumbers) -> Result<(), String> {
    if numbers[1] != numbers[2..17].iter().sum::<u64>() {
        return Err(format!("the counts do not add up to the sheets: {numbers:?}"));
    }
    if numbers.iter().any(|number| *number > case.book.len() as u64) {
        return Err(format!("a number above the {} bytes of the file: {numbers:?}", case.book.len()));
    }
    let written = sheets(&case.book).map(|sheets| (write_book(&sheets), sheets.len() as u64));
    if written.as_ref().map(|(book, count)| (book.as_slice(), *count)) != Some((&case.book, numbers[1])) {
        return Err("the book was read as something that is written otherwise".to_owned());
    }
    Ok(())
}

/// What single checks of the sheets add up to, each held by library, model and Rust; and how many of them the Rust was kept out of.
pub fn singles(case: &BookCase) -> Result<(TallyNumbers, u64), String> {
    let (mut numbers, mut kept_out) = ([0; 18], 0);
    let mut known: BTreeMap<&[u8], Answer> = BTreeMap::new();
    for sheet in sheets(&case.book).unwrap_or_default() {
        if !known.contains_key(sheet) {
            let single = case.single(sheet);
            let held = agreement::hold(&single).map_err(|trouble| compare::report(&single, &trouble, "a sheet of a book"))?;
            let answer = match held {
                Held::Agreed(answer) => answer,
                Held::Refused(number) => Answer { number, ..Answer::default() },
                Held::KeptOut => {
                    kept_out += 1;
                    model::check(&single.call())
                }
            };
            known.insert(sheet, answer);
        }
        book::count(&mut numbers, &known[sheet]);
    }
    Ok((numbers, kept_out))
}

/// Holds the tally, and, where it is none of a refusal, what single checks add up to; with that, how many of these the Rust was kept out of.
pub fn hold_all(case: &BookCase, extent: Extent) -> Result<(TallyNumbers, u64), String> {
    let numbers = hold(case, extent)?;
    if numbers[0] != 0 {
        return Ok((numbers, 0));
    }
    match singles(case)? {
        (sum, kept_out) if sum == numbers => Ok((numbers, kept_out)),
        (sum, _) => Err(format!("the tally is {numbers:?}, single checks add up to {sum:?}")),
    }
}

/// Prints a disagreement as a small book, and answers with what is wrong.
pub fn report(case: &BookCase, trouble: &str, which: &str) -> String {
    println!("{which}: {trouble}");
    let fails = |case: &BookCase| hold_all(case, Extent::All).is_err();
    let mut small = BookCase { expect: Expect::Anything, ..case.clone() };
    if !fails(&small) {
        small = case.clone();
    }
    while let Some(smaller) = candidates(&small).into_iter().find(fails) {
        small = smaller;
    }
    if let Err(trouble) = hold_all(&small, Extent::All) {
        println!("made smaller: {trouble}");
    }
    small.print();
    "the library, the model and the Rust do not all agree".to_owned()
}
