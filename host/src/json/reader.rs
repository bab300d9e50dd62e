//! The grammar of RFC 8259, read to the first fault. Arrays and objects that are open wait in a list, so nesting costs no stack.

use super::fault::Fault;
use super::tree::{Content, Node, Tree};
use crate::limits::MAX_JSON_NESTING;
use crate::number::is_number;
use std::ops::Range;

type Read<T> = Result<T, Fault>;

const BYTE_ORDER_MARK: &[u8] = b"\xEF\xBB\xBF";

pub struct Reader<'a> {
    text: &'a [u8],
    at: usize,
    nodes: Vec<Node>,
    /// The nodes of arrays and objects that are not closed yet, the innermost last.
    open: Vec<usize>,
}

impl<'a> Reader<'a> {
    pub const fn new(text: &'a [u8]) -> Self {
        Self {
            text,
            at: 0,
            nodes: Vec::new(),
            open: Vec::new(),
        }
    }

    pub fn document(mut self) -> Read<Tree> {
        if self.text.starts_with(BYTE_ORDER_MARK) {
            return self.fail("expected a value, not a byte order mark before it");
        }
        self.spaces();
        self.value()?;
        while let Some(&open) = self.open.last() {
            self.next(open)?;
        }
        self.spaces();
        match self.byte() {
            None => Ok(Tree::new(self.nodes)),
            Some(_) => self.fail("expected the end of the text"),
        }
    }

    fn byte(&self) -> Option<u8> {
        self.text.get(self.at).copied()
    }

    fn rest(&self) -> &'a [u8] {
        self.text.get(self.at..).unwrap_or_default()
    }

    fn fail<T>(&self, reason: impl Into<String>) -> Read<T> {
        self.fail_at(self.at, reason)
    }

    fn fail_at<T>(&self, byte: usize, reason: impl Into<String>) -> Read<T> {
        Err(Fault::new(self.text, byte, reason))
    }

    fn skip(&mut self, count: usize) {
        self.at = self.at.saturating_add(count).min(self.text.len());
    }

    /// Goes behind the byte, if it is the next.
    fn take(&mut self, byte: u8) -> bool {
        let is_next = self.byte() == Some(byte);
        self.skip(usize::from(is_next));
        is_next
    }

    fn spaces(&mut self) {
        let is_space = |byte: &&u8| matches!(**byte, b' ' | b'\t' | b'\n' | b'\r');
        self.skip(self.rest().iter().take_while(is_space).count());
    }

    fn push(&mut self, start: usize, content: Content) {
        self.nodes.push(Node {
            span: start..self.at,
            content,
            size: 1,
        });
    }

    /// What follows in an array or object: its next element or member, or its end.
    fn next(&mut self, open: usize) -> Read<()> {
        let is_object = self.nodes.get(open).map(|node| &node.content) == Some(&Content::Object);
        let is_first = self.nodes.len() == open.saturating_add(1);
        let close = if is_object { b'}' } else { b']' };
        self.spaces();
        if self.take(close) {
            self.close(open);
            return Ok(());
        }
        if !is_first && !self.take(b',') {
            let close = char::from(close);
            return self.fail(format!("expected a comma or `{close}`"));
        }
        self.spaces();
        if is_object {
            self.key()?;
        }
        self.value()
    }

    /// The innermost that is open has ended.
    fn close(&mut self, open: usize) {
        self.open.pop();
        let (end, size) = (self.at, self.nodes.len().saturating_sub(open));
        if let Some(node) = self.nodes.get_mut(open) {
            node.span.end = end;
            node.size = size;
        }
    }

    /// The name of a member, and the colon.
    fn key(&mut self) -> Read<()> {
        let start = self.at;
        if self.byte() != Some(b'"') {
            return self.fail("expected the name of a member, a string");
        }
        let name = self.string()?;
        self.push(start, Content::Key(name));
        self.spaces();
        if !self.take(b':') {
            return self.fail("expected a colon after the name");
        }
        self.spaces();
        Ok(())
    }

    /// A value, or the beginning of one that holds others.
    fn value(&mut self) -> Read<()> {
        let start = self.at;
        let content = match self.byte() {
            Some(b'"') => Content::String(self.string()?),
            Some(b'[') => return self.begin(Content::Array),
            Some(b'{') => return self.begin(Content::Object),
            Some(b'n') => self.word(b"null", Content::Null)?,
            Some(b't') => self.word(b"true", Content::Bool(true))?,
            Some(b'f') => self.word(b"false", Content::Bool(false))?,
            _ => self.number()?,
        };
        self.push(start, content);
        Ok(())
    }

    fn begin(&mut self, content: Content) -> Read<()> {
        if self.open.len() >= MAX_JSON_NESTING {
            return self.fail("arrays and objects nest over 1,024 deep");
        }
        let start = self.at;
        self.skip(1);
        self.open.push(self.nodes.len());
        self.push(start, content);
        Ok(())
    }

    fn word(&mut self, word: &[u8], content: Content) -> Read<Content> {
        match self.rest().starts_with(word) {
            true => {
                self.skip(word.len());
                Ok(content)
            }
            false => self.fail("expected a value"),
        }
    }

    fn number(&mut self) -> Read<Content> {
        let is_of_number =
            |byte: &&u8| matches!(**byte, b'0'..=b'9' | b'+' | b'-' | b'.' | b'e' | b'E');
        let count = self.rest().iter().take_while(is_of_number).count();
        let text = self.rest().get(..count).unwrap_or_default();
        let text = String::from_utf8_lossy(text).into_owned();
        match (count, is_number(&text)) {
            (0, _) => self.fail("expected a value"),
            (_, false) => self.fail(format!("expected a number as JSON writes it, not {text:?}")),
            (_, true) => {
                self.skip(count);
                Ok(Content::Number(text))
            }
        }
    }

    /// A string, from its opening quotation mark to behind the closing one.
    fn string(&mut self) -> Read<String> {
        let start = self.at;
        let mut text = String::new();
        self.skip(1);
        loop {
            self.plain(&mut text)?;
            match self.byte() {
                Some(b'"') => {
                    self.skip(1);
                    return Ok(text);
                }
                Some(b'\\') => text.push(self.escape()?),
                Some(control) => {
                    return self.fail(format!(
                        "expected \\u{control:04x}, since a string has no control byte as it is"
                    ));
                }
                None => return self.fail_at(start, "this string has no end"),
            }
        }
    }

    /// What stands for itself.
    fn plain(&mut self, text: &mut String) -> Read<()> {
        let is_plain = |byte: &&u8| !matches!(**byte, 0..0x20 | b'"' | b'\\');
        let count = self.rest().iter().take_while(is_plain).count();
        match std::str::from_utf8(self.rest().get(..count).unwrap_or_default()) {
            Ok(plain) => {
                text.push_str(plain);
                self.skip(count);
                Ok(())
            }
            Err(error) => {
                let byte = self.at.saturating_add(error.valid_up_to());
                self.fail_at(byte, "expected text in UTF-8")
            }
        }
    }

    /// What an escape stands for. A pair of surrogates is one escape.
    fn escape(&mut self) -> Read<char> {
        let start = self.at;
        self.skip(1);
        let letter = self.byte();
        self.skip(1);
        match letter {
            Some(b'u') => self.unicode(start),
            Some(same @ (b'"' | b'\\' | b'/')) => Ok(char::from(same)),
            Some(b'b') => Ok('\u{8}'),
            Some(b'f') => Ok('\u{C}'),
            Some(b'n') => Ok('\n'),
            Some(b'r') => Ok('\r'),
            Some(b't') => Ok('\t'),
            _ => self.fail_at(
                start,
                "expected an escape of JSON: \\\", \\\\, \\/, \\b, \\f, \\n, \\r, \\t or \\u and four digits",
            ),
        }
    }

    fn unicode(&mut self, start: usize) -> Read<char> {
        let first = self.digits()?;
        let is_high = (0xD800..0xDC00).contains(&first);
        let code = match is_high && self.rest().starts_with(b"\\u") {
            true => {
                self.skip(2);
                pair(first, self.digits()?)
            }
            false => Some(first),
        };
        match code.and_then(char::from_u32) {
            Some(character) => Ok(character),
            None => self.fail_at(
                start,
                "this escape is one half of a surrogate pair, without the other",
            ),
        }
    }

    /// Four hexadecimal digits.
    fn digits(&mut self) -> Read<u32> {
        let digits = self.rest().get(..4).filter(|digits| is_hexadecimal(digits));
        let digits = digits.and_then(|digits| std::str::from_utf8(digits).ok());
        match digits.and_then(|digits| u32::from_str_radix(digits, 16).ok()) {
            Some(number) => {
                self.skip(4);
                Ok(number)
            }
            None => self.fail("expected four hexadecimal digits"),
        }
    }
}

fn is_hexadecimal(digits: &[u8]) -> bool {
    digits.iter().all(u8::is_ascii_hexdigit)
}

/// The character of a high surrogate and what follows it, if that is a low one.
fn pair(high: u32, low: u32) -> Option<u32> {
    let is_low = (0xDC00..0xE000).contains(&low);
    let high = high.checked_sub(0xD800)?.checked_mul(0x400)?;
    let low = low.checked_sub(0xDC00).filter(|_| is_low)?;
    high.checked_add(low)?.checked_add(0x1_0000)
}

/// Where in the text a part of a string is, given by bytes of what it says without its escapes.
pub fn within(text: &[u8], string: Range<usize>, part: Range<usize>) -> Range<usize> {
    let place = |bytes: usize| behind(text, string.start, bytes).unwrap_or(string.end);
    place(part.start)..place(part.end)
}

/// The place behind so many bytes of what a string says.
fn behind(text: &[u8], string: usize, bytes: usize) -> Option<usize> {
    let mut reader = Reader::new(text);
    reader.skip(string.saturating_add(1));
    let mut said: usize = 0;
    while said < bytes {
        match reader.byte()? {
            b'"' => return None,
            b'\\' => said = said.saturating_add(reader.escape().ok()?.len_utf8()),
            _ => {
                reader.skip(1);
                said = said.saturating_add(1);
            }
        }
    }
    Some(reader.at)
}
