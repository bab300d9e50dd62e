//! Names that are nearly right. The tool takes this file in too.

/// The name that a reader most likely meant, if one is near enough: as it is but for the case of letters, or a third of its letters away.
/// Of equally near ones the first counts.
pub(crate) fn nearest<'a>(
    given: &str,
    names: impl IntoIterator<Item = &'a str>,
) -> Option<&'a str> {
    let letters: Vec<char> = given.chars().collect();
    let most = letters.len().max(3).checked_div(3)?;
    let mut best: Option<(usize, &str)> = None;
    for name in names {
        let distance = match name.to_lowercase() == given.to_lowercase() {
            true => 0,
            false => distance(&letters, name, most),
        };
        if name != given && distance <= most && best.is_none_or(|(least, _)| distance < least) {
            best = Some((distance, name));
        }
    }
    best.map(|(_, name)| name)
}

/// How many letters are left out, added, changed or exchanged with their neighbour; `most` + 1 where the lengths already differ by more than that.
fn distance(given: &[char], name: &str, most: usize) -> usize {
    let name: Vec<char> = name.chars().collect();
    if given.len().abs_diff(name.len()) > most {
        return most.saturating_add(1);
    }
    let mut before: Vec<usize> = Vec::new();
    let mut row: Vec<usize> = (0..=name.len()).collect();
    let mut last = None;
    for (count, &letter) in (1..).zip(given) {
        let next = next_row(&name, (last, letter), count, [&before, &row]);
        before = std::mem::replace(&mut row, next);
        last = Some(letter);
    }
    row.last().copied().unwrap_or_default()
}

/// The distances of the given name's first letters, so many of them, from the beginnings of the other, out of the two rows before.
fn next_row(
    name: &[char],
    (last, letter): (Option<char>, char),
    count: usize,
    [before, row]: [&[usize]; 2],
) -> Vec<usize> {
    let at = |row: &[usize], index: usize| row.get(index).copied().unwrap_or(usize::MAX);
    let mut next = vec![count];
    let mut previous = None;
    for (index, &other) in name.iter().enumerate() {
        let changed = at(row, index).saturating_add(usize::from(letter != other));
        let added = at(&next, index).saturating_add(1);
        let left_out = at(row, index.saturating_add(1)).saturating_add(1);
        let is_exchanged = last == Some(other) && previous == Some(letter);
        let exchanged = match index.checked_sub(1) {
            Some(two_before) if is_exchanged => at(before, two_before).saturating_add(1),
            _ => usize::MAX,
        };
        next.push(changed.min(added).min(left_out).min(exchanged));
        previous = Some(other);
    }
    next
}

#[cfg(test)]
mod tests {
    use super::*;

    #[test]
    fn distances_count_edits() {
        let far = |given: &str, name| distance(&given.chars().collect::<Vec<_>>(), name, 9);
        for (given, name, expected) in [
            ("", "", 0),
            ("abc", "abc", 0),
            ("abc", "", 3),
            ("threded", "threaded", 1),
            ("nmae", "name", 1),
            ("ca", "abc", 3),
            ("kitten", "sitting", 3),
            ("é", "e", 1),
        ] {
            assert_eq!(far(given, name), expected, "{given} {name}");
            assert_eq!(far(name, given), expected, "{name} {given}");
        }
    }

    #[test]
    fn only_near_names_are_meant() {
        let names = ["bars", "drawn", "name", "speed"];
        let meant = |given| nearest(given, names);
        assert_eq!(meant("bar"), Some("bars"));
        assert_eq!(meant("nmae"), Some("name"));
        assert_eq!(meant("SPEED"), Some("speed"));
        assert_eq!(meant("speeed"), Some("speed"));
        assert_eq!(meant("loom"), None);
        assert_eq!(meant(""), None);
        assert_eq!(nearest("bars", ["bars"]), None);
        assert_eq!(nearest("ab", ["ax", "xb"]), Some("ax"));
    }
}
