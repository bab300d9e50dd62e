//! Numbers on which the Rust may overflow or not come to an end. A rule that holds one is counted and not run.

use model::trees::{Condition, Data, Operator, Sheet, Value};

/// The largest exponent with which the Rust is asked about a zero: it counts the places one by one.
const MAX_ZERO_EXPONENT: u128 = 1_000_000;

/// Exponents of this magnitude leave the Rust's 64 bits once the fraction's length is added.
const OVERFLOWING: std::ops::RangeInclusive<u128> = (1 << 63) - 1_024..=(1 << 63) - 1;

pub fn is_kept_out(sheet: &Sheet) -> bool {
    match sheet {
        Sheet::Rule(rule) => in_condition(&rule.condition),
        Sheet::Template(value) => in_value(value),
    }
}

fn in_condition(condition: &Condition) -> bool {
    match &condition.operator {
        Operator::Literal(_) => false,
        Operator::All(children) | Operator::Any(children) => children.iter().any(in_condition),
        Operator::Not(child) => in_condition(child),
        Operator::Exists(value) | Operator::Truthy(value) => in_value(value),
        Operator::Pair(_, sides) | Operator::Compare(_, sides) => sides.iter().any(in_value),
        Operator::Quantifier { over, body, .. } => in_value(over) || in_condition(body),
    }
}

fn in_value(value: &Value) -> bool {
    match &value.data {
        Data::Number(text) => overruns(text),
        Data::Array(values) => values.iter().any(in_value),
        Data::Object(members) => members.iter().any(|(_, member)| in_value(member)),
        _ => false,
    }
}

fn overruns(number: &str) -> bool {
    let Some((mantissa, exponent)) = number.split_once(['e', 'E']) else {
        return false;
    };
    let digits = exponent.trim_start_matches(['+', '-']).trim_start_matches('0');
    // No digits are a zero; what 128 bits cannot hold lies above every bound here.
    let magnitude = if digits.is_empty() { 0 } else { digits.parse().unwrap_or(u128::MAX) };
    let is_zero = !mantissa.bytes().any(|byte| (b'1'..=b'9').contains(&byte));
    OVERFLOWING.contains(&magnitude) || (is_zero && magnitude > MAX_ZERO_EXPONENT)
}

#[cfg(test)]
mod tests {
    use super::overruns;

    #[test]
    fn exponents_just_below_two_to_the_63_stay_out() {
        assert!(overruns("1e9223372036854774784") && overruns("-1.5E-9223372036854775807"));
        assert!(!overruns("1e9223372036854774783") && !overruns("1e9223372036854775808"));
    }

    #[test]
    fn zeros_with_a_huge_exponent_stay_out() {
        assert!(overruns("0e1000001") && overruns("-0.00E-0001000001") && overruns(&format!("0e{}", "9".repeat(60))));
        assert!(!overruns("0e1000000") && !overruns("0.1e1000001") && !overruns("0"));
    }
}
