//! Random texts: instants in every spelling, and texts that fail to be instants by a field, a mark or a few bytes.

use crate::generate::values::{INSTANTS, NO_INSTANTS};
use crate::random::Random;
use crate::samples::{self, Kind};

/// White space, the last two of which are none.
const AROUND: [&str; 10] = [" ", "\n", "\t\r", "\u{85}", "\u{a0}", "\u{2028} ", "\u{3000}", "\u{1680}\u{205f}", "\u{200b}", "\u{feff}"];

/// A text, damaged or not.
pub fn text(random: &mut Random) -> Vec<u8> {
    let mut letters: Vec<char> = written(random).chars().collect();
    for _ in 0..random.pick(&[0, 0, 0, 0, 1, 2]) {
        damage(random, &mut letters);
    }
    let mut text = letters.into_iter().collect::<String>().into_bytes();
    if random.chance(4) && !text.is_empty() {
        let at = random.below(text.len());
        text[at] = random.bits() as u8;
    }
    text
}

/// One character inserted, left out or put in place of another.
fn damage(random: &mut Random, letters: &mut Vec<char>) {
    let others: Vec<char> = characters().collect();
    let (at, other) = (random.below(letters.len() + 1), random.pick(&others));
    match random.below(3) {
        0 => letters.insert(at, other),
        _ if at == letters.len() => {}
        1 => letters[at] = other,
        _ => drop(letters.remove(at)),
    }
}

fn written(random: &mut Random) -> String {
    let date = date(random);
    let time = if random.chance(75) { time(random) } else { String::new() };
    let [before, behind] = [(); 2].map(|()| if random.chance(15) { random.pick(&AROUND) } else { "" });
    format!("{before}{date}{time}{}{behind}", zone(random, time.is_empty()))
}

/// Most often a day that there is, and often one of the last of its month.
fn date(random: &mut Random) -> String {
    let year = random.below(10_000);
    let year = random.pick(&[year, year / 4 * 4, year / 100 * 100, year / 400 * 400]);
    let month = field(random, 1, 12);
    let day = if random.chance(50) { random.between(1, 28) } else { field(random, 28, 31) };
    format!("{year:04}-{month:02}-{day:02}")
}

fn time(random: &mut Random) -> String {
    let (hour, minute) = (field(random, 0, 23), field(random, 0, 59));
    let second = if random.chance(15) { 60 } else { field(random, 0, 60) };
    let digits = if random.chance(4) { random.pick(&[0, 10, 11]) } else { random.between(1, 9) };
    let fraction: String = (0..digits).map(|_| char::from(b'0' + random.below(10) as u8)).collect();
    let fraction = if random.chance(70) { format!(".{fraction}") } else { String::new() };
    format!("{}{hour:02}:{minute:02}:{second:02}{fraction}", random.pick(&["T", "t", " "]))
}

/// A number in its bounds, or now and then one beside them.
fn field(random: &mut Random, low: usize, high: usize) -> usize {
    match random.below(40) {
        0 => low.saturating_sub(1),
        1 => high + 1,
        _ => random.between(low, high),
    }
}

/// A letter where there may be one, and seldom something else.
fn zone(random: &mut Random, is_date: bool) -> &'static str {
    match random.below(30) {
        0 => random.pick(&["Z", "ZZ", "zZ", " Z", "+00:00", "-01", "."]),
        odd if is_date || odd % 2 == 1 => "",
        _ => random.pick(&["Z", "z"]),
    }
}

/// The texts that the generators and the gate know of.
pub fn known() -> Vec<Vec<u8>> {
    let listed = INSTANTS.iter().chain(&NO_INSTANTS).map(|text| text.as_bytes().to_vec());
    let samples = samples::lines().into_iter().filter(|sample| sample.kind == Kind::Instant).map(|sample| sample.bytes);
    listed.chain(samples).collect()
}

/// Characters that are inserted and put in place of others: every ASCII one, white space, and digits that are not ASCII.
pub fn characters() -> impl Iterator<Item = char> + Clone {
    (0..128_u8).map(char::from).chain(['\u{85}', '\u{a0}', '\u{2028}', '\u{3000}', '\u{feff}', '２', '٢', 'é', '−', '：'])
}
