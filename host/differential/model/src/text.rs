//! UTF-8, white space, blank and trim (docs/FORMAT.md, "Text").

/// The first code point of `bytes` and how many bytes it takes, by the table of RFC 3629, section 4.
pub fn first_code_point(bytes: &[u8]) -> Option<(u32, usize)> {
    let lead = *bytes.first()?;
    let (length, seconds) = match lead {
        0x00..=0x7F => return Some((u32::from(lead), 1)),
        0xC2..=0xDF => (2, 0x80..=0xBF),
        0xE0 => (3, 0xA0..=0xBF),
        0xE1..=0xEC | 0xEE..=0xEF => (3, 0x80..=0xBF),
        0xED => (3, 0x80..=0x9F),
        0xF0 => (4, 0x90..=0xBF),
        0xF1..=0xF3 => (4, 0x80..=0xBF),
        0xF4 => (4, 0x80..=0x8F),
        _ => return None,
    };
    let sequence = bytes.get(..length)?;
    let tails = &sequence[2..];
    if !seconds.contains(&sequence[1]) || !tails.iter().all(|tail| (0x80..=0xBF).contains(tail)) {
        return None;
    }
    let lead_bits = u32::from(lead) & (0x7F >> length);
    let point = sequence[1..].iter().fold(lead_bits, |point, tail| {
        (point << 6) | u32::from(tail & 0x3F)
    });
    Some((point, length))
}

pub fn is_utf8(bytes: &[u8]) -> bool {
    let mut rest = bytes;
    while !rest.is_empty() {
        match first_code_point(rest) {
            Some((_, length)) => rest = &rest[length..],
            None => return false,
        }
    }
    true
}

/// The code points of a text, each with the byte it starts at and the byte after it.
fn code_points(text: &str) -> Vec<(usize, usize, u32)> {
    let bytes = text.as_bytes();
    let mut points = Vec::new();
    let mut at = 0;
    while at < bytes.len() {
        let (point, length) = first_code_point(&bytes[at..]).expect("a str is UTF-8");
        points.push((at, at + length, point));
        at += length;
    }
    points
}

pub fn is_white_space(point: u32) -> bool {
    matches!(
        point,
        0x9..=0xD
            | 0x20
            | 0x85
            | 0xA0
            | 0x1680
            | 0x2000..=0x200A
            | 0x2028
            | 0x2029
            | 0x202F
            | 0x205F
            | 0x3000
    )
}

/// Empty, or white space only.
pub fn is_blank(text: &str) -> bool {
    code_points(text)
        .iter()
        .all(|&(_, _, point)| is_white_space(point))
}

/// The text without the white space at its two ends.
pub fn trim(text: &str) -> &str {
    let points = code_points(text);
    let is_kept = |&&(_, _, point): &&(usize, usize, u32)| !is_white_space(point);
    let first = points.iter().find(is_kept);
    let last = points.iter().rev().find(is_kept);
    match (first, last) {
        (Some(&(start, _, _)), Some(&(_, end, _))) => &text[start..end],
        _ => "",
    }
}

#[cfg(test)]
mod tests {
    use super::*;

    #[test]
    fn every_scalar_value_is_read_back() {
        for point in (0..=0x10FFFF).filter_map(char::from_u32) {
            let mut buffer = [0; 4];
            let bytes = point.encode_utf8(&mut buffer).as_bytes();
            assert_eq!(
                first_code_point(bytes),
                Some((u32::from(point), bytes.len()))
            );
        }
    }

    #[test]
    fn malformed_sequences_are_refused() {
        let malformed: [&[u8]; 22] = [
            &[0x80],
            &[0xBF],
            &[0x61, 0x80],
            &[0xC2],
            &[0xE2, 0x82],
            &[0xF0, 0x9F, 0x98],
            &[0xC0, 0x80],
            &[0xC0, 0xAF],
            &[0xC1, 0xBF],
            &[0xE0, 0x80, 0xAF],
            &[0xE0, 0x9F, 0xBF],
            &[0xF0, 0x80, 0x80, 0xAF],
            &[0xF0, 0x8F, 0xBF, 0xBF],
            &[0xED, 0xA0, 0x80],
            &[0xED, 0xBF, 0xBF],
            &[0xF4, 0x90, 0x80, 0x80],
            &[0xF5, 0x80, 0x80, 0x80],
            &[0xF8, 0x88, 0x80, 0x80, 0x80],
            &[0xFE],
            &[0xFF],
            &[0xC2, 0x41],
            &[0xE2, 0x82, 0x41],
        ];
        for bytes in malformed {
            assert!(!is_utf8(bytes), "{bytes:02X?}");
        }
    }

    #[test]
    fn samples_of_rfc_3629_are_accepted() {
        let samples: [&[u8]; 4] = [
            &[0x41, 0xE2, 0x89, 0xA2, 0xCE, 0x91, 0x2E],
            &[0xED, 0x95, 0x9C, 0xEA, 0xB5, 0xAD, 0xEC, 0x96, 0xB4],
            &[0xE6, 0x97, 0xA5, 0xE6, 0x9C, 0xAC, 0xE8, 0xAA, 0x9E],
            &[0xEF, 0xBB, 0xBF, 0xF0, 0xA3, 0x8E, 0xB4],
        ];
        for bytes in samples {
            assert!(is_utf8(bytes), "{bytes:02X?}");
        }
    }

    #[test]
    fn white_space_is_what_rust_trims() {
        for point in (0..=0x10FFFF).filter_map(char::from_u32) {
            assert_eq!(
                is_white_space(u32::from(point)),
                point.is_whitespace(),
                "{point:?}"
            );
        }
    }

    #[test]
    fn trimming_leaves_the_middle() {
        for text in [
            "",
            " ",
            "a",
            " a ",
            "\u{3000}a b\u{85}\n",
            "\u{200B}",
            "\u{FEFF}a",
            "\u{1C}a ",
            "é\u{2028}",
        ] {
            assert_eq!(trim(text), text.trim(), "{text:?}");
            assert_eq!(is_blank(text), text.trim().is_empty(), "{text:?}");
        }
    }
}
