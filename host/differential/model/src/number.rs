//! Number text and finite numbers (docs/FORMAT.md, "Numbers").

use std::sync::OnceLock;

/// A number's text taken apart, each part digits alone.
struct Parts<'a> {
    whole: &'a [u8],
    fraction: &'a [u8],
    exponent_negative: bool,
    exponent: &'a [u8],
}

/// The digits at the start, and what follows them.
fn digits(text: &[u8]) -> (&[u8], &[u8]) {
    let count = text.iter().take_while(|byte| byte.is_ascii_digit()).count();
    text.split_at(count)
}

/// `[ minus ] int [ frac ] [ exp ]`, the whole text (RFC 8259, section 6).
fn parts(text: &[u8]) -> Option<Parts<'_>> {
    let unsigned = text.strip_prefix(b"-").unwrap_or(text);
    let (whole, rest) = digits(unsigned);
    if whole.is_empty() || (whole.len() > 1 && whole[0] == b'0') {
        return None;
    }
    let (fraction, rest) = match rest.strip_prefix(b".") {
        Some(after) => some_digits(after)?,
        None => (&rest[..0], rest),
    };
    let Some(signed) = rest.strip_prefix(b"e").or(rest.strip_prefix(b"E")) else {
        return rest.is_empty().then_some(Parts {
            whole,
            fraction,
            exponent_negative: false,
            exponent: b"0",
        });
    };
    let exponent_negative = signed.starts_with(b"-");
    let unsigned = signed
        .strip_prefix(b"-")
        .or(signed.strip_prefix(b"+"))
        .unwrap_or(signed);
    let (exponent, rest) = some_digits(unsigned)?;
    rest.is_empty().then_some(Parts {
        whole,
        fraction,
        exponent_negative,
        exponent,
    })
}

/// As `digits`, but at least one.
fn some_digits(text: &[u8]) -> Option<(&[u8], &[u8])> {
    let (found, rest) = digits(text);
    (!found.is_empty()).then_some((found, rest))
}

pub fn is_number(text: &str) -> bool {
    parts(text.as_bytes()).is_some()
}

/// Whether the magnitude is below 2^1024 - 2^970. Text that is not a number is not finite.
pub fn is_finite(text: &str) -> bool {
    parts(text.as_bytes()).is_some_and(|parts| {
        let (magnitude, bound) = multiplied_out(&parts, text.len());
        is_less(&magnitude, &bound)
    })
}

/// How many digits are compared with the bound's: none if the first nonzero digit is elsewhere than the bound's first, else those up to and with the
/// first that differs, and all that the bound has if none does.
pub fn compared(text: &str) -> usize {
    let Some(parts) = parts(text.as_bytes()) else {
        return 0;
    };
    let (magnitude, scaled) = multiplied_out(&parts, text.len());
    let magnitude = without_leading_zeros(&magnitude);
    if magnitude.len() != scaled.len() {
        return 0;
    }
    let digits = bound().len();
    let differing = (0..digits).find(|&place| magnitude[place] != scaled[place]);
    differing.map_or(digits, |place| place + 1)
}

/// The magnitude and the bound, both times the power of 10 that makes them naturals.
///
/// With the mantissa's digits read as one natural m, f digits of fraction and exponent e, these are m * 10^e and bound * 10^f, or m and bound * 10^(f + e)
/// where the exponent is negative.
fn multiplied_out(parts: &Parts<'_>, length: usize) -> (Vec<u8>, Vec<u8>) {
    // A mantissa that is not 0 lies between 1 and 10^length, so an exponent past this reach decides alone, and so does the reach.
    let exponent = value_up_to(length + 400, parts.exponent);
    let mut left = [parts.whole, parts.fraction].concat();
    let mut right = bound().to_vec();
    append_zeros(&mut right, parts.fraction.len());
    append_zeros(
        if parts.exponent_negative {
            &mut right
        } else {
            &mut left
        },
        exponent,
    );
    (left, right)
}

fn append_zeros(natural: &mut Vec<u8>, count: usize) {
    natural.resize(natural.len() + count, b'0');
}

/// The natural that the digits write, or `most` where it is larger.
fn value_up_to(most: usize, natural: &[u8]) -> usize {
    natural.iter().fold(0, |value, digit| {
        most.min(value * 10 + usize::from(digit - b'0'))
    })
}

/// Order of naturals written in decimal.
fn is_less(left: &[u8], right: &[u8]) -> bool {
    let left = without_leading_zeros(left);
    let right = without_leading_zeros(right);
    (left.len(), left) < (right.len(), right)
}

fn without_leading_zeros(natural: &[u8]) -> &[u8] {
    let zeros = natural.iter().take_while(|&&digit| digit == b'0').count();
    &natural[zeros..]
}

/// The digits of 2^1024 - 2^970, worked out by doubling.
pub fn bound() -> &'static [u8] {
    static BOUND: OnceLock<Vec<u8>> = OnceLock::new();
    BOUND.get_or_init(|| subtract(&power_of_two(1024), &power_of_two(970)))
}

fn power_of_two(exponent: usize) -> Vec<u8> {
    (0..exponent).fold(vec![b'1'], |power, _| doubled(&power))
}

fn doubled(natural: &[u8]) -> Vec<u8> {
    let mut reversed = Vec::new();
    let mut carry = 0;
    for digit in natural.iter().rev() {
        let sum = (digit - b'0') * 2 + carry;
        reversed.push(b'0' + sum % 10);
        carry = sum / 10;
    }
    if carry > 0 {
        reversed.push(b'0' + carry);
    }
    reversed.reverse();
    reversed
}

/// `large - small`, where `small` is not the larger.
fn subtract(large: &[u8], small: &[u8]) -> Vec<u8> {
    let mut reversed = Vec::new();
    let mut borrow = 0;
    let mut small_digits = small.iter().rev();
    for digit in large.iter().rev() {
        let taken = small_digits.next().map_or(0, |digit| digit - b'0') + borrow;
        let had = digit - b'0';
        borrow = u8::from(had < taken);
        reversed.push(b'0' + had + 10 * borrow - taken);
    }
    reversed.reverse();
    reversed
}

#[cfg(test)]
mod tests {
    use super::*;

    const ACCEPTED: [&str; 16] = [
        "0",
        "-0",
        "9",
        "10",
        "-12",
        "0.5",
        "10.25",
        "1e5",
        "1E5",
        "1e+5",
        "1e-5",
        "0e0",
        "1.5e007",
        "0.0",
        "-0.0e-00",
        "123456789012345678901",
    ];
    const REFUSED: [&str; 20] = [
        "", "-", "+1", "01", "-01", "00", ".5", "1.", "1.e5", "1e", "1e+", "1e-", "e5", "0x1",
        "1_0", " 1", "1 ", "NaN", "Infinity", "1e5.0",
    ];

    #[test]
    fn grammar_of_rfc_8259() {
        for text in ACCEPTED {
            assert!(is_number(text), "{text}");
        }
        for text in REFUSED {
            assert!(!is_number(text), "{text}");
            assert!(!is_finite(text), "{text}");
        }
    }

    #[test]
    fn the_bound_has_309_digits_and_is_where_rust_rounds_to_infinity() {
        let digits = String::from_utf8(bound().to_vec()).unwrap();
        assert_eq!(digits.len(), 309);
        assert!(digits.starts_with("179769313486231580793"));
        assert!(digits.parse::<f64>().unwrap().is_infinite());
        let below = String::from_utf8(subtract(bound(), b"1")).unwrap();
        assert_eq!(below.parse::<f64>().unwrap(), f64::MAX);
        for (text, finite) in [(&digits, false), (&below, true)] {
            assert_eq!(is_finite(text), finite);
            assert_eq!(is_finite(&format!("-{text}")), finite);
            assert_eq!(is_finite(&format!("{text}.0")), finite);
            assert_eq!(is_finite(&format!("{text}000e-3")), finite);
            assert_eq!(is_finite(&format!("0.000{text}e312")), finite);
            assert_eq!(
                is_finite(&format!("{}.{}E+308", &text[..1], &text[1..])),
                finite
            );
        }
        assert!(is_finite(&format!("{below}.{}", "9".repeat(200))));
        assert!(!is_finite(&format!("{digits}.{}1", "0".repeat(200))));
    }

    #[test]
    fn finite_as_rust_parses() {
        for text in ACCEPTED {
            assert_eq!(
                is_finite(text),
                text.parse::<f64>().unwrap().is_finite(),
                "{text}"
            );
        }
        for exponent in -700..700 {
            for mantissa in [
                "1",
                "0",
                "17976931348623157e293",
                "1.7976931348623159",
                "0.00017976931348623158",
                "99999",
                "-1.8",
            ] {
                let text = match mantissa.split_once('e') {
                    Some((digits, _)) => format!("{digits}e{}", exponent - 16),
                    None => format!("{mantissa}e{exponent}"),
                };
                assert_eq!(
                    is_finite(&text),
                    text.parse::<f64>().unwrap().is_finite(),
                    "{text}"
                );
            }
        }
    }

    #[test]
    fn exponents_of_any_length() {
        let nines = "9".repeat(500);
        assert!(is_finite("0e99999"));
        assert!(!is_finite("1e309"));
        assert!(is_finite("1e308"));
        assert!(!is_finite(&format!("1e{nines}")));
        assert!(is_finite(&format!("1e-{nines}")));
        assert!(is_finite(&format!("0.000e{nines}")));
        assert!(is_finite(&format!("-0e{nines}")));
        assert!(is_finite(&format!("1e{}1", "0".repeat(500))));
        assert!(!is_finite("1e9223372036854775807"));
        assert!(is_finite("1e-9223372036854775808"));
        assert!(!is_finite("1e18446744073709551617"));
        assert!(is_finite(&format!("0.{}1e700", "0".repeat(400))));
        assert!(!is_finite(&format!("0.{}1e800", "0".repeat(400))));
    }
    #[test]
    fn digits_are_compared_at_the_bounds_place_alone() {
        for text in ["", "x", "0", "0e308", "0e309", "1e307", "1e309", "-9.9e307"] {
            assert_eq!(compared(text), 0, "{text}");
        }
        for (text, count) in [
            ("1e308", 2),
            ("2e308", 1),
            ("1.7976931348623157e308", 17),
            ("1.7976931348623158e308", 19),
            ("1.8e308", 2),
            ("-0.00018E+312", 2),
        ] {
            assert_eq!(compared(text), count, "{text}");
        }
        let digits = String::from_utf8(bound().to_vec()).unwrap();
        let below = String::from_utf8(subtract(bound(), b"1")).unwrap();
        for text in [&digits, &below] {
            assert_eq!(compared(text), 309);
            assert_eq!(compared(&format!("{text}.5")), 309);
            assert_eq!(compared(&format!("-0.000{text}e312")), 309);
            assert_eq!(compared(&format!("{text}000e-3")), 309);
            assert_eq!(compared(&format!("{text}e1")), 0);
            assert_eq!(compared(&format!("{text}e-1")), 0);
        }
        assert_eq!(compared(&digits[..308]), 0);
        assert_eq!(compared(&format!("{}e1", &digits[..308])), 309);
        assert_eq!(compared(&format!("{}8", &digits[..308])), 309);
        assert_eq!(compared(&format!("{}0", &digits[..308])), 309);
    }
}
