//! The program `rulecheck` (docs/FORMAT.md, "The program `rulecheck`").

use super::call::{Answer, Call, PATH_BYTES, SCRATCH_WORDS};
use super::verdict::check;

pub const MAX_FILE_BYTES: usize = 65_536;

/// What the program prints for the bytes of `check.in`: one line, or nothing.
pub fn rulecheck(file: &[u8]) -> Vec<u8> {
    match call(file) {
        Some(call) => print(&check(&call)),
        None => Vec::new(),
    }
}

/// The call that a file describes, where it has the form.
fn call(file: &[u8]) -> Option<Call<'_>> {
    if file.len() > MAX_FILE_BYTES {
        return None;
    }
    let (kind, rest) = numeral(file)?;
    let (semantics, rest) = numeral(rest)?;
    let (label_count, rest) = numeral(rest)?;
    let (schema_count, rest) = numeral(rest)?;
    let (rule_count, rest) = numeral(rest)?;
    let (label, rest) = bytes(rest, label_count)?;
    let (schema, rest) = bytes(rest.strip_prefix(b"\n")?, schema_count)?;
    let (rule, rest) = bytes(rest, rule_count)?;
    rest.is_empty().then_some(Call {
        kind,
        semantics,
        label,
        table: &[],
        schema,
        rule,
        path_len: PATH_BYTES,
        scratch_len: SCRATCH_WORDS,
    })
}

/// A numeral without leading zeros and the comma after it. A value past 64 bits counts as the largest: no setting and no count is
/// so large.
pub(super) fn numeral(file: &[u8]) -> Option<(u64, &[u8])> {
    let end = file.iter().position(|&byte| byte == b',')?;
    let digits = &file[..end];
    let has_leading_zero = digits.len() > 1 && digits[0] == b'0';
    if digits.is_empty() || has_leading_zero || !digits.iter().all(u8::is_ascii_digit) {
        return None;
    }
    let value = digits.iter().fold(0_u64, |value, digit| {
        value
            .saturating_mul(10)
            .saturating_add(u64::from(digit - b'0'))
    });
    Some((value, &file[end + 1..]))
}

pub(super) fn bytes(file: &[u8], count: u64) -> Option<(&[u8], &[u8])> {
    file.split_at_checked(usize::try_from(count).ok()?)
}

fn print(answer: &Answer) -> Vec<u8> {
    let mut line = format!(
        "{},{},{},{},{},{},",
        answer.number, answer.family, answer.detail, answer.place, answer.over_place, answer.passed
    )
    .into_bytes();
    line.extend(&answer.path);
    line.push(0x0A);
    line
}

#[cfg(test)]
mod tests {
    use super::*;

    const SHEETS: &str = "H,0,0,-,0\nT\nV,1,0,\n";

    fn prints(first_line: &str) -> String {
        String::from_utf8(rulecheck(format!("{first_line}\n{SHEETS}").as_bytes())).unwrap()
    }

    #[test]
    fn the_worked_example() {
        let file = "2,2,1,44,67,r\nH,0,1,-,0\nF,6,0,1,0,4,-,bars\nF,2,0,0,0,0,-,\nR,-,-,\nC,20,1,b\nV,5,12,$fields.bars\nC,12,0,\nV,5,8,$b.count\nV,4,1,9\n";
        assert_eq!(
            rulecheck(file.as_bytes()),
            b"18,8,9,5,3,9,r.assert.for_all.that.lt[0]\n"
        );
    }

    #[test]
    fn answers() {
        assert_eq!(prints("1,1,0,10,9,"), "0,0,0,0,0,0,\n");
        assert_eq!(prints("1,1,3,10,9,a\n,"), "0,0,0,0,0,0,\n");
        assert_eq!(prints("9,1,0,10,9,"), "1,0,0,0,0,0,\n");
        assert_eq!(prints("4294967297,1,0,10,9,"), "1,0,0,0,0,0,\n");
        assert_eq!(prints("1,18446744073709551617,0,10,9,"), "1,0,0,0,0,0,\n");
        assert_eq!(prints("1,1,0,9,10,"), "4,0,0,0,0,0,\n");
        assert_eq!(prints("1,1,0,0,19,"), "4,0,0,0,0,0,\n");
        let long = format!("1,1,257,10,9,{}", "l".repeat(257));
        assert_eq!(prints(&long), "2,0,0,0,0,0,\n");
    }

    #[test]
    fn other_forms_print_nothing() {
        for first_line in [
            "",
            "1,1,0,10,9",
            "1,1,0,10,10,",
            "1,1,0,10,8,",
            "1,1,1,10,9,",
            "01,1,0,10,9,",
            "1,1,00,10,9,",
            "1,1,0,010,9,",
            "1,1,,10,9,",
            "-1,1,0,10,9,",
            "+1,1,0,10,9,",
            " 1,1,0,10,9,",
            "1,1,0,10,18446744073709551625,",
            "1,1,0,10,9,\r",
        ] {
            assert_eq!(prints(first_line), "", "{first_line}");
        }
    }

    #[test]
    fn files_up_to_65536_bytes() {
        for (bytes, printed) in [(65_536, "4,0,0,0,0,0,\n"), (65_537, "")] {
            let head = format!("1,1,0,0,{},\n", bytes - 15);
            let file = format!("{head}{}", "x".repeat(bytes - head.len()));
            assert_eq!(file.len(), bytes);
            assert_eq!(rulecheck(file.as_bytes()), printed.as_bytes());
        }
    }
}
