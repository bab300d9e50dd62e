//! JSON text (RFC 8259) read into a tree and written from one. The tree is that of a sheet's values; no entry is numbered.

use super::text::first_code_point;
use super::trees::{Data, Value};

/// How many arrays and objects may stand in one another.
pub const MAX_JSON_NESTING: usize = 1_024;

/// The tree of a text that is JSON and nests no deeper than it may; members are as they come, a key may occur twice.
pub fn document(text: &[u8]) -> Option<Value> {
    let mut reader = Reader { rest: text };
    reader.white_space();
    let value = reader.value(0)?;
    reader.white_space();
    reader.rest.is_empty().then_some(value)
}

/// What is left of a text. Each part takes what it reads off it.
struct Reader<'a> {
    rest: &'a [u8],
}

impl Reader<'_> {
    /// `ws`, section 2.
    fn white_space(&mut self) {
        while let [b' ' | b'\t' | b'\n' | b'\r', rest @ ..] = self.rest {
            self.rest = rest;
        }
    }

    fn byte(&mut self, expected: u8) -> Option<()> {
        self.word(&[expected])
    }

    fn word(&mut self, expected: &[u8]) -> Option<()> {
        self.rest = self.rest.strip_prefix(expected)?;
        Some(())
    }

    /// Takes the byte if it comes next.
    fn has(&mut self, expected: u8) -> bool {
        self.byte(expected).is_some()
    }

    /// `value`, section 3, inside so many arrays and objects.
    fn value(&mut self, around: usize) -> Option<Value> {
        let data = match self.rest.first()? {
            b'n' => self.word(b"null").map(|()| Data::Null)?,
            b't' => self.word(b"true").map(|()| Data::Bool(true))?,
            b'f' => self.word(b"false").map(|()| Data::Bool(false))?,
            b'"' => Data::String(self.string()?),
            b'[' | b'{' if around == MAX_JSON_NESTING => return None,
            b'[' => Data::Array(self.array(around + 1)?),
            b'{' => Data::Object(self.object(around + 1)?),
            _ => Data::Number(self.number()?),
        };
        Some(Value { entry: 0, data })
    }

    /// `object`, section 4.
    fn object(&mut self, around: usize) -> Option<Vec<(String, Value)>> {
        self.byte(b'{')?;
        self.white_space();
        let mut members = Vec::new();
        if self.has(b'}') {
            return Some(members);
        }
        loop {
            self.white_space();
            let key = self.string()?;
            self.white_space();
            self.byte(b':')?;
            self.white_space();
            members.push((key, self.value(around)?));
            self.white_space();
            if self.has(b'}') {
                return Some(members);
            }
            self.byte(b',')?;
        }
    }

    /// `array`, section 5.
    fn array(&mut self, around: usize) -> Option<Vec<Value>> {
        self.byte(b'[')?;
        self.white_space();
        let mut values = Vec::new();
        if self.has(b']') {
            return Some(values);
        }
        loop {
            self.white_space();
            values.push(self.value(around)?);
            self.white_space();
            if self.has(b']') {
                return Some(values);
            }
            self.byte(b',')?;
        }
    }

    /// `number`, section 6: as much as belongs to it. What then follows is no part of a value.
    fn number(&mut self) -> Option<String> {
        let start = self.rest;
        self.has(b'-');
        if !self.has(b'0') {
            self.digits()?;
        }
        if self.has(b'.') {
            self.digits()?;
        }
        if self.has(b'e') || self.has(b'E') {
            let _ = self.has(b'+') || self.has(b'-');
            self.digits()?;
        }
        let length = start.len() - self.rest.len();
        String::from_utf8(start[..length].to_vec()).ok()
    }

    fn digits(&mut self) -> Option<()> {
        let count = self
            .rest
            .iter()
            .take_while(|byte| byte.is_ascii_digit())
            .count();
        self.rest = &self.rest[count..];
        (count > 0).then_some(())
    }

    /// `string`, section 7, as the characters that it stands for.
    fn string(&mut self) -> Option<String> {
        self.byte(b'"')?;
        let mut text = String::new();
        loop {
            if self.has(b'"') {
                return Some(text);
            }
            text.push(self.character()?);
        }
    }

    fn character(&mut self) -> Option<char> {
        if self.has(b'\\') {
            return self.escaped();
        }
        let (point, length) = first_code_point(self.rest)?;
        if point < 0x20 {
            return None;
        }
        self.rest = &self.rest[length..];
        char::from_u32(point)
    }

    /// What follows a backslash.
    fn escaped(&mut self) -> Option<char> {
        let (&letter, rest) = self.rest.split_first()?;
        self.rest = rest;
        match letter {
            b'"' | b'\\' | b'/' => Some(char::from(letter)),
            b'b' => Some('\u{8}'),
            b'f' => Some('\u{C}'),
            b'n' => Some('\n'),
            b'r' => Some('\r'),
            b't' => Some('\t'),
            b'u' => self.unicode(),
            _ => None,
        }
    }

    /// What follows `\u`: a character of the first plane, or a surrogate and then its other half. A surrogate alone is no `char`.
    fn unicode(&mut self) -> Option<char> {
        let unit = self.hexadecimal()?;
        if !(0xD800..=0xDBFF).contains(&unit) {
            return char::from_u32(unit);
        }
        self.word(b"\\u")?;
        let low = self
            .hexadecimal()
            .filter(|low| (0xDC00..=0xDFFF).contains(low))?;
        char::from_u32(0x1_0000 + ((unit - 0xD800) << 10) + (low - 0xDC00))
    }

    /// Four hexadecimal digits, of either case.
    fn hexadecimal(&mut self) -> Option<u32> {
        let (digits, rest) = self.rest.split_first_chunk::<4>()?;
        self.rest = rest;
        digits.iter().try_fold(0, |sum, digit| {
            Some(sum * 16 + char::from(*digit).to_digit(16)?)
        })
    }
}

/// Compact JSON, members in the order of the tree.
pub fn write_json(value: &Value, text: &mut String) {
    match &value.data {
        Data::Null => text.push_str("null"),
        Data::Bool(truth) => text.push_str(if *truth { "true" } else { "false" }),
        Data::Number(number) => text.push_str(number),
        Data::String(string) => write_string(string, text),
        Data::Array(values) => {
            let parts = values
                .iter()
                .map(|value| move |text: &mut String| write_json(value, text));
            write_list('[', parts, ']', text);
        }
        Data::Object(members) => {
            let parts = members.iter().map(|(key, value)| {
                move |text: &mut String| {
                    write_string(key, text);
                    text.push(':');
                    write_json(value, text);
                }
            });
            write_list('{', parts, '}', text);
        }
    }
}

fn write_list<P: FnOnce(&mut String)>(
    open: char,
    parts: impl Iterator<Item = P>,
    close: char,
    text: &mut String,
) {
    text.push(open);
    for (index, part) in parts.enumerate() {
        if index > 0 {
            text.push(',');
        }
        part(text);
    }
    text.push(close);
}

/// The only escapes are a backslash before `"` and `\`, and `\u00xx` below 20 hexadecimal.
fn write_string(string: &str, text: &mut String) {
    text.push('"');
    for character in string.chars() {
        match character {
            '"' | '\\' => text.extend(['\\', character]),
            '\0'..='\u{1F}' => text.push_str(&format!("\\u{:04x}", u32::from(character))),
            _ => text.push(character),
        }
    }
    text.push('"');
}
