//! Finite numbers, and how many digits are compared for that.

use entity_rules::{
    Condition, DefectNumber, Finite, Kind, Rule, Schema, Semantics, Value, check_rule, finite, raw,
};

/// The digits of 2^1024 - 2^970.
fn bound() -> String {
    // 2^970 · (2^54 - 1), doubled digit by digit
    let mut digits: Vec<u8> = ((1_u64 << 54) - 1)
        .to_string()
        .bytes()
        .map(|digit| digit - b'0')
        .collect();
    for _ in 0..970 {
        let mut carry = 0;
        for digit in digits.iter_mut().rev() {
            let sum = 2 * *digit + carry;
            (*digit, carry) = (sum % 10, sum / 10);
        }
        if carry > 0 {
            digits.insert(0, carry);
        }
    }
    digits
        .iter()
        .map(|digit| char::from(b'0' + digit))
        .collect()
}

fn tested(text: &str, is_finite: bool, compared: u32) {
    let expected = Finite {
        is_finite,
        compared,
    };
    assert_eq!(finite(text), expected, "{text}");
    assert_eq!(
        raw::finite(text.as_bytes()),
        2 * compared + u32::from(is_finite)
    );
}

#[test]
fn the_place_decides_where_it_can() {
    for text in [
        "0",
        "-0.000",
        "0e308",
        "0e99999",
        "1",
        "1e307",
        "9.99e307",
        "12.5e-400",
    ] {
        tested(text, true, 0);
    }
    for text in ["1e309", "-0.1e310", "1e99999999999999999999"] {
        tested(text, false, 0);
    }
    for text in ["", "x", "1e", "01", "1.8e308 "] {
        tested(text, false, 0);
    }
    tested(&"9".repeat(500), false, 0);
    tested(&format!("0.{}", "9".repeat(500)), true, 0);
}

#[test]
fn the_first_digit_that_differs_decides() {
    tested("1e308", true, 2);
    tested("2e308", false, 1);
    tested("1.8e308", false, 2);
    tested("1.7976931348623157e308", true, 17);
    tested("1.7976931348623158e308", true, 19);
    tested("1.7976931348623159e308", false, 17);
}

#[test]
fn the_bound_and_its_neighbours() {
    let bound = bound();
    let (short, last) = bound.split_at(308);
    assert_eq!(last, "2");
    for (text, is_finite) in [
        (bound.clone(), false),
        (format!("{bound}.5"), false),
        (format!("{bound}{}e-191", "9".repeat(191)), false),
        (format!("{short}1"), true),
        (format!("{short}1.{}", "9".repeat(191)), true),
        (format!("{short}3"), false),
        (format!("-0.000{bound}e312"), false),
        (format!("-0.000{short}1E+0312"), true),
        (format!("{short}1{}e-40", "0".repeat(40)), true),
    ] {
        tested(&text, is_finite, 309);
    }
    for agreed in 1..309 {
        let digit = bound.as_bytes()[agreed] - b'0';
        let compared = u32::try_from(agreed).expect("a small number") + 1;
        let zeros = 308 - agreed;
        if digit > 0 {
            let text = format!("{}{}e{zeros}", &bound[..agreed], digit - 1);
            tested(&text, true, compared);
        }
        if digit < 9 {
            let text = format!("{}{}e{zeros}", &bound[..agreed], digit + 1);
            tested(&text, false, compared);
        }
    }
}

/// The numbers of a rule are judged alike, under the service semantics.
#[test]
fn a_number_that_is_not_finite_is_a_defect() {
    let schema = Schema::new().sheet().expect("a small schema");
    for text in ["1e307", "1e309", "1.7976931348623158e308", "1.8e308"] {
        let rule = Rule::new(Condition::eq(Value::number(text), 0)).sheet();
        let rule = rule.expect("a small rule");
        let verdict = check_rule(Kind::Invariant, Semantics::Service1, "r", &schema, &rule);
        let verdict = verdict.expect("sheets that are read");
        let defect = verdict.defect().map(|defect| defect.number);
        assert_eq!(defect.is_none(), finite(text).is_finite, "{text}");
        assert!(defect.is_none_or(|number| number == DefectNumber::Literal));
    }
}
