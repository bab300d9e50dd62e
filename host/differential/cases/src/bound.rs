//! The smallest magnitude that is not finite, 2^1024 - 2^970, computed here from nothing.

use std::sync::OnceLock;

/// The 309 digits of the bound.
pub fn bound() -> &'static str {
    static DIGITS: OnceLock<String> = OnceLock::new();
    // 2^1024 - 2^970 = 2^970 · (2^54 - 1)
    DIGITS.get_or_init(|| {
        let start = (1_u64 << 54) - 1;
        let doubled = (0..970).fold(start.to_string().into_bytes(), |digits, _| double(digits));
        doubled.into_iter().map(char::from).collect()
    })
}

/// Decimal digits, the first one highest, times two.
fn double(digits: Vec<u8>) -> Vec<u8> {
    let mut carry = 0;
    let mut doubled: Vec<u8> = Vec::with_capacity(digits.len() + 1);
    for digit in digits.iter().rev() {
        let sum = 2 * (digit - b'0') + carry;
        doubled.push(b'0' + sum % 10);
        carry = sum / 10;
    }
    if carry > 0 {
        doubled.push(b'0' + carry);
    }
    doubled.reverse();
    doubled
}
