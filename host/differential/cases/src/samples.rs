//! The samples that the programs `text_samples` and `number_samples` run, compared with Rust's own `str` and `f64` and serde_json's number grammar.

const TEXTS: &str = include_str!("../../../../crates/text_samples/stdin");
const NUMBERS: &[u8] = include_bytes!("../../../../crates/number_samples/stdin");

/// What a sample is one of.
#[derive(Clone, Copy, Debug, PartialEq, Eq)]
pub enum Kind {
    Utf8,
    Blank,
    Instant,
    Number,
}

/// A sample and what its line says of it.
#[derive(Clone, Debug)]
pub struct Sample {
    pub kind: Kind,
    pub bytes: Vec<u8>,
    /// Whether it is what its kind says.
    pub holds: bool,
    /// Whether a number is finite; true of all else.
    pub finite: bool,
    /// How many digits of a number are compared; 0 of all else.
    pub compared: usize,
}

/// Every sample, in the order of the lists.
pub fn lines() -> Vec<Sample> {
    let texts = TEXTS.lines().filter(|line| !line.is_empty() && !line.starts_with('#')).map(text);
    let numbers = NUMBERS.split(|&byte| byte == b'\n').filter(|line| !line.is_empty() && line[0] != b'#');
    texts.chain(numbers.map(number)).collect()
}

/// How many digits of its fields precede an instant that is read.
const FIELD_DIGITS: usize = 23;

/// `u` UTF-8 and `b` blank text in hexadecimal, `i` instants as text; then the verdict.
fn text(line: &str) -> Sample {
    let (head, rest) = line.split_at(2);
    let holds = head.ends_with('+');
    let (kind, bytes) = match &head[..1] {
        "u" => (Kind::Utf8, bytes_of(rest)),
        "b" => (Kind::Blank, bytes_of(rest)),
        _ if holds => (Kind::Instant, rest.as_bytes()[FIELD_DIGITS..].to_vec()),
        _ => (Kind::Instant, rest.as_bytes().to_vec()),
    };
    Sample { kind, bytes, holds, finite: true, compared: 0 }
}

/// `n` no number, `f` finite, `i` not finite; then how many digits are compared, in three digits, and a comma.
fn number(line: &[u8]) -> Sample {
    let compared = line[1..4].iter().fold(0, |count, digit| 10 * count + usize::from(digit - b'0'));
    Sample { kind: Kind::Number, bytes: line[5..].to_vec(), holds: line[0] != b'n', finite: line[0] != b'i', compared }
}

fn bytes_of(hexadecimal: &str) -> Vec<u8> {
    let pair = |at: usize| u8::from_str_radix(&hexadecimal[at..at + 2], 16).expect("a sample is in hexadecimal");
    (0..hexadecimal.len()).step_by(2).map(pair).collect()
}
