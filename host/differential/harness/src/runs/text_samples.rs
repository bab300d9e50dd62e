//! `text_samples`: the model's text and numbers compared with Rust's own `str`, `char` and `f64` and with serde_json's number grammar, and the library's test
//! of numbers against the model's.

use crate::library::raw;
use crate::readings::refusals::is_number;
use cases::bound::bound;
use cases::generate::values::near_bound;
use cases::random::Random;
use cases::samples::{lines, Kind, Sample};
use model::{number, text};
use std::fmt::Debug;

const RANDOM_INPUTS: u64 = 2_000_000;
const SEED: u64 = 1;

/// What is checked, and the check, which answers how many inputs it tried.
type Check = (&'static str, fn() -> Result<u64, String>);

/// Runs every check; an error names the first input on which two readings differ.
pub fn text_samples() -> Result<(), String> {
    let checks: [Check; 11] = [
        ("UTF-8, all strings of up to 3 bytes", short_utf8),
        ("UTF-8, 4 bytes at the edges of the ranges", four_byte_utf8),
        ("UTF-8, random bytes", random_utf8),
        ("white space, every code point and beyond", white_space),
        ("trimming and blank, random texts", trimming),
        ("number grammar, all short texts", short_numbers),
        ("finite, all short numbers and random ones at the bound", finite),
        ("finite and digits compared, the library on such numbers and on ones of 500 digits", tested),
        ("the digits of the bound", digits_of_bound),
        ("the samples of UTF-8 and of blank text", texts_of_samples),
        ("the samples of numbers", numbers_of_samples),
    ];
    for (name, check) in checks {
        println!("{name}: {} inputs", check()?);
    }
    println!("no disagreement");
    Ok(())
}

/// An error if the two readings of an input differ.
fn equal<T: PartialEq + Debug>(input: impl Debug, model: T, other: T) -> Result<(), String> {
    if model == other {
        return Ok(());
    }
    Err(format!("{input:?}: the model reads {model:?}, Rust {other:?}"))
}

/// Validity, and the first code point where there is one.
fn utf8(bytes: &[u8]) -> Result<(), String> {
    let read = std::str::from_utf8(bytes);
    equal(bytes, text::is_utf8(bytes), read.is_ok())?;
    let valid = match read {
        Ok(all) => all,
        Err(error) => std::str::from_utf8(&bytes[..error.valid_up_to()]).expect("it is valid up to there"),
    };
    let first = valid.chars().next().map(|character| (u32::from(character), character.len_utf8()));
    equal(bytes, text::first_code_point(bytes), first)
}

fn short_utf8() -> Result<u64, String> {
    utf8(&[])?;
    for value in 0..1_u32 << 24 {
        let [_, first, second, third] = value.to_be_bytes();
        utf8(&[first, second, third])?;
        if value < 1 << 16 {
            utf8(&[second, third])?;
        }
        if value < 1 << 8 {
            utf8(&[third])?;
        }
    }
    Ok(1 + (1 << 8) + (1 << 16) + (1 << 24))
}

fn four_byte_utf8() -> Result<u64, String> {
    const EDGES: [u8; 20] =
        [0x00, 0x41, 0x7F, 0x80, 0x8F, 0x90, 0x9F, 0xA0, 0xBF, 0xC0, 0xC1, 0xC2, 0xDF, 0xE0, 0xED, 0xEF, 0xF0, 0xF4, 0xF5, 0xFF];
    for lead in 0..=u8::MAX {
        for index in 0..EDGES.len().pow(3) {
            let edge = |place: u32| EDGES[index / EDGES.len().pow(place) % EDGES.len()];
            utf8(&[lead, edge(0), edge(1), edge(2)])?;
        }
    }
    Ok(256 * (EDGES.len() as u64).pow(3))
}

fn random_utf8() -> Result<u64, String> {
    let mut random = Random::new(SEED);
    for _ in 0..RANDOM_INPUTS {
        let mut bytes = a_text(&mut random).into_bytes();
        if !bytes.is_empty() && random.chance(60) {
            let at = random.below(bytes.len());
            bytes[at] = random.bits() as u8;
        }
        utf8(&bytes)?;
    }
    Ok(RANDOM_INPUTS)
}

/// A short text of characters of every length, white space among them.
fn a_text(random: &mut Random) -> String {
    const CHARACTERS: [char; 28] = [
        'a',
        '$',
        '.',
        ' ',
        '\t',
        '\n',
        '\u{b}',
        '\r',
        '\u{1c}',
        '\u{1f}',
        '\u{85}',
        '\u{a0}',
        'é',
        '\u{1680}',
        '\u{180e}',
        '\u{2000}',
        '\u{200a}',
        '\u{200b}',
        '\u{2028}',
        '\u{2029}',
        '\u{202f}',
        '\u{205f}',
        '\u{2060}',
        '\u{3000}',
        '\u{feff}',
        '\u{ffff}',
        '\u{10000}',
        '\u{10ffff}',
    ];
    (0..random.below(9)).map(|_| random.pick(&CHARACTERS)).collect()
}

fn white_space() -> Result<u64, String> {
    let past = 0x0020_0000;
    for point in 0..past {
        equal(point, text::is_white_space(point), char::from_u32(point).is_some_and(char::is_whitespace))?;
    }
    Ok(u64::from(past))
}

fn trimming() -> Result<u64, String> {
    let mut random = Random::new(SEED);
    for _ in 0..RANDOM_INPUTS {
        let sample = a_text(&mut random);
        equal(&sample, text::trim(&sample), sample.trim())?;
        equal(&sample, text::is_blank(&sample), sample.trim().is_empty())?;
    }
    Ok(RANDOM_INPUTS)
}

/// Calls `check` with every text of up to `length` bytes over the alphabet.
fn each_text(alphabet: &[u8], length: u32, check: impl Fn(&str) -> Result<(), String>) -> Result<u64, String> {
    let mut count = 0;
    for bytes in 0..=length {
        for index in 0..alphabet.len().pow(bytes) {
            let letter = |place| char::from(alphabet[index / alphabet.len().pow(place) % alphabet.len()]);
            let text: String = (0..bytes).map(letter).collect();
            check(&text)?;
            count += 1;
        }
    }
    Ok(count)
}

fn short_numbers() -> Result<u64, String> {
    let grammar = |text: &str| equal(text, number::is_number(text), is_number(text));
    Ok(each_text(b"019-+.eE", 7, grammar)? + each_text(b"0-+.eE xX\n\"_a", 5, grammar)?)
}

/// The value decides, whatever the form: `f64` rounds to nearest, ties to even.
fn same_finite(text: &str) -> Result<(), String> {
    let read = is_number(text) && text.parse::<f64>().is_ok_and(f64::is_finite);
    equal(text, number::is_finite(text), read)
}

fn finite() -> Result<u64, String> {
    let short = each_text(b"0139-.eE", 6, same_finite)?;
    let mut random = Random::new(SEED);
    for _ in 0..RANDOM_INPUTS / 4 {
        same_finite(&near_bound(&mut random))?;
        same_finite(&long_number(&mut random))?;
    }
    let shifted = shifts(bound(), same_finite)?;
    Ok(short + RANDOM_INPUTS / 2 + shifted)
}

/// The library's two answers and the model's.
fn same_test(text: &str) -> Result<(), String> {
    let (model, library) = ((number::is_finite(text), number::compared(text)), raw::finite(text.as_bytes()));
    if model == library {
        return Ok(());
    }
    Err(format!("{text:?}: finite and digits compared are {model:?} by the model, {library:?} by the library"))
}

fn tested() -> Result<u64, String> {
    let short = each_text(b"0139-.eE", 6, same_test)?;
    let mut random = Random::new(SEED);
    for _ in 0..RANDOM_INPUTS / 8 {
        same_test(&near_bound(&mut random))?;
        same_test(&long_number(&mut random))?;
        same_test(&agreeing_number(&mut random))?;
    }
    let shifted = shifts(bound(), same_test)?;
    Ok(short + RANDOM_INPUTS / 8 * 3 + shifted)
}

/// 500 digits that begin as the bound does, the first of them at the bound's place or one beside it.
fn agreeing_number(random: &mut Random) -> String {
    let agreed = random.between(0, bound().len());
    let mut digits = bound()[..agreed].to_owned();
    digits.extend((agreed..500).map(|_| char::from(b'0' + random.below(10) as u8)));
    let point = random.between(1, 499);
    let exponent = 309 - point as i64 + random.pick(&[0, 0, 0, 0, 1, -1]);
    format!("{}.{}e{exponent}", &digits[..point], &digits[point..])
}

/// The bound and its neighbours, the point at every place and the exponent making up for it.
fn shifts(bound: &str, check: impl Fn(&str) -> Result<(), String>) -> Result<u64, String> {
    let below = format!("{}1", &bound[..bound.len() - 1]);
    let above = format!("{}3", &bound[..bound.len() - 1]);
    let digits = [bound.to_owned(), below, above, format!("{}.0", bound), format!("{}.00001", bound)];
    for digits in &digits {
        check(digits)?;
        check(&format!("-{digits}"))?;
    }
    let mut count = 2 * digits.len() as u64;
    for whole in digits.iter().filter(|digits| !digits.contains('.')) {
        for point in 1..whole.len() {
            check(&format!("{}.{}e{}", &whole[..point], &whole[point..], whole.len() - point))?;
            check(&format!("0.{}{whole}E+{}", "0".repeat(point % 190), point % 190 + whole.len()))?;
            check(&format!("{whole}{}e-{point}", "0".repeat(point % 200)))?;
            count += 3;
        }
    }
    Ok(count)
}

/// A number of up to 512 bytes with any exponent, also one that no machine word holds.
fn long_number(random: &mut Random) -> String {
    let digit = |random: &mut Random| char::from(b'0' + random.below(10) as u8);
    let (whole, fraction) = (random.between(1, 240), random.between(1, 240));
    let mut text = String::from(if random.chance(50) { "-" } else { "" });
    text.push(char::from(b'1' + random.below(9) as u8));
    text.extend((1..whole).map(|_| digit(random)));
    text.push('.');
    text.extend((0..fraction).map(|_| if random.chance(50) { '0' } else { digit(random) }));
    text.push(if random.chance(50) { 'e' } else { 'E' });
    text.push_str(random.pick(&["", "+", "-"]));
    match random.below(3) {
        0 => text.push_str(&(random.below(400)).to_string()),
        1 => text.push_str(&(309_usize.saturating_sub(whole) + random.below(3)).to_string()),
        _ => text.extend((0..random.between(1, 25)).map(|_| digit(random))),
    }
    text
}

fn digits_of_bound() -> Result<u64, String> {
    equal("bound", number::bound(), bound().as_bytes())?;
    equal("bound", bound().parse::<f64>().ok(), Some(f64::INFINITY))?;
    Ok(1)
}

/// An error if Rust judges the sample otherwise than its line says.
fn agree(sample: &Sample, said: bool, rust: bool) -> Result<(), String> {
    if said == rust {
        return Ok(());
    }
    Err(format!("the sample {:?} is {said} by its line and {rust} by Rust", String::from_utf8_lossy(&sample.bytes)))
}

/// The UTF-8 samples, and those of blank text.
fn texts_of_samples() -> Result<u64, String> {
    let mut count = 0;
    for sample in lines().iter().filter(|sample| matches!(sample.kind, Kind::Utf8 | Kind::Blank)) {
        let read = std::str::from_utf8(&sample.bytes);
        let holds = match sample.kind {
            Kind::Utf8 => read.is_ok(),
            _ => read.is_ok_and(|text| text.trim().is_empty()),
        };
        agree(sample, sample.holds, holds)?;
        count += 1;
    }
    Ok(count)
}

fn numbers_of_samples() -> Result<u64, String> {
    let mut count = 0;
    for sample in lines().iter().filter(|sample| sample.kind == Kind::Number) {
        let text = std::str::from_utf8(&sample.bytes).unwrap_or_default();
        agree(sample, sample.holds, is_number(text))?;
        if sample.holds {
            agree(sample, sample.finite, text.parse::<f64>().is_ok_and(f64::is_finite))?;
        }
        let (modelled, found) = (model::number::compared(text), raw::finite(&sample.bytes).1);
        if [modelled, found] != [sample.compared; 2] {
            return Err(format!("the sample {text:?}: {modelled} digits are compared by the model, {found} by the library"));
        }
        count += 1;
    }
    Ok(count)
}
