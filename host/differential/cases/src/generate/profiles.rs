//! Random cases of every kind.

use super::names::Names;
use super::setting::{right, slips};
use super::{damage, deep, limits, members, planted, widen};
use crate::case::Case;
use crate::random::Random;

/// A name, how often in a thousand cases it comes, and what makes it.
type Profile = (&'static str, usize, fn(&mut Random, &Names) -> Case);

/// The kinds of cases.
pub const PROFILES: [Profile; 10] = [
    ("right", 200, right),
    ("slips", 300, slips),
    ("planted", 250, planted::case),
    ("damaged", 110, damage::case),
    ("members", 30, members::case),
    ("widened", 60, widen::case),
    ("settings", 20, limits::settings),
    ("deep", 15, deep::case),
    ("limits", 10, limits::case),
    ("wide", 5, limits::wide),
];

/// A case of any profile in which those names may be read, and the profile's index.
pub fn case(random: &mut Random, names: &Names) -> (usize, Case) {
    let mut ticket = random.below(1_000);
    for (index, (_, share, make)) in PROFILES.iter().enumerate() {
        if ticket < *share {
            return (index, make(random, names));
        }
        ticket -= share;
    }
    unreachable!("the shares add up to a thousand")
}
