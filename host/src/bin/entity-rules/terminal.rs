//! What the terminal can show: colours, a bar, and the width of texts.

use std::env;

/// Whether the terminal can only print: neither colours nor a bar.
pub fn is_dumb() -> bool {
    env::var_os("TERM").is_some_and(|term| term == "dumb")
}

/// Whether its user wants no colours (<https://no-color.org>).
pub fn is_plain() -> bool {
    env::var_os("NO_COLOR").is_some_and(|value| !value.is_empty())
}

/// How many columns a text without control characters takes. Letters of East Asian scripts and pictures are wide: they take two.
pub fn columns(text: &str) -> usize {
    let wide = [
        '\u{1100}'..='\u{115F}',
        '\u{2E80}'..='\u{A4CF}',
        '\u{AC00}'..='\u{D7A3}',
        '\u{F900}'..='\u{FAFF}',
        '\u{FE30}'..='\u{FE6F}',
        '\u{FF00}'..='\u{FF60}',
        '\u{FFE0}'..='\u{FFE6}',
        '\u{1F300}'..='\u{1FAFF}',
        '\u{20000}'..='\u{3FFFD}',
    ];
    let is_wide = |letter: char| wide.iter().any(|range| range.contains(&letter));
    text.chars()
        .map(|letter| usize::from(is_wide(letter)).saturating_add(1))
        .fold(0, usize::saturating_add)
}

#[cfg(test)]
mod tests {
    use super::*;

    #[test]
    fn wide_letters_take_two_columns() {
        assert_eq!(columns(""), 0);
        assert_eq!(columns("$bar.é"), 6);
        assert_eq!(columns("糸.x"), 4);
    }
}
