//! Objects of JSON, written member by member.

use crate::printed::name;
use std::ffi::OsStr;

/// An object that is being written.
pub struct Object(String);

impl Object {
    pub fn new() -> Self {
        Self("{".to_owned())
    }

    fn key(&mut self, key: &str) {
        if self.0.len() > 1 {
            self.0.push(',');
        }
        self.string(key);
        self.0.push(':');
    }

    pub fn text(&mut self, key: &str, text: &str) {
        self.key(key);
        self.string(text);
    }

    /// A word of the command line. Where it is not UTF-8, its bytes follow in hexadecimal, since JSON has no room for them.
    pub fn given(&mut self, key: &str, word: &OsStr) {
        match word.to_str() {
            Some(text) => self.text(key, text),
            None => {
                let bytes = word.as_encoded_bytes().iter();
                let bytes: String = bytes.map(|byte| format!("{byte:02x}")).collect();
                self.text(key, &name(word));
                self.text(&format!("{key}_bytes"), &bytes);
            }
        }
    }

    pub fn number(&mut self, key: &str, number: impl std::fmt::Display) {
        self.key(key);
        self.0.push_str(&number.to_string());
    }

    pub fn truth(&mut self, key: &str, truth: bool) {
        self.number(key, truth);
    }

    /// An object within this one.
    pub fn object(&mut self, key: &str, object: &Object) {
        self.key(key);
        self.0.push_str(&object.0);
        self.0.push('}');
    }

    pub fn list(&mut self, key: &str, objects: impl Iterator<Item = Object>) {
        self.key(key);
        let objects: Vec<String> = objects.map(|object| object.0 + "}").collect();
        self.0.push_str(&format!("[{}]", objects.join(",")));
    }

    pub fn texts(&mut self, key: &str, texts: &[&str]) {
        self.key(key);
        self.0.push('[');
        for (index, text) in texts.iter().enumerate() {
            if index > 0 {
                self.0.push(',');
            }
            self.string(text);
        }
        self.0.push(']');
    }

    fn string(&mut self, text: &str) {
        self.0.push('"');
        for character in text.chars() {
            match character {
                '"' | '\\' => self.0.extend(['\\', character]),
                control if control.is_control() => {
                    self.0.push_str(&format!("\\u{:04x}", u32::from(control)))
                }
                other => self.0.push(other),
            }
        }
        self.0.push('"');
    }

    pub fn line(mut self) -> String {
        self.0.push_str("}\n");
        self.0
    }
}

#[cfg(test)]
mod tests {
    use super::*;

    #[test]
    fn strings_are_escaped() {
        let mut object = Object::new();
        object.text("a\"", "\\\n\u{7F}é");
        object.number("n", 7);
        assert_eq!(
            object.line(),
            "{\"a\\\"\":\"\\\\\\u000a\\u007fé\",\"n\":7}\n"
        );
    }
}
