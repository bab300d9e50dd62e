//! Texts and names as they are printed.

use std::ffi::OsStr;

/// A file's name, a path or a text, as it is printed.
pub fn name(given: &OsStr) -> String {
    let mut shown = String::new();
    for chunk in given.as_encoded_bytes().utf8_chunks() {
        shown.push_str(&visible(chunk.valid()));
        for byte in chunk.invalid() {
            shown.push_str(&format!("\\x{byte:02x}"));
        }
    }
    shown
}

/// A text in which nothing can steer a terminal.
pub fn visible(text: &str) -> String {
    let mut shown = String::with_capacity(text.len());
    for character in text.chars() {
        match character {
            '"' | '\'' | '\\' => shown.push(character),
            other => shown.extend(other.escape_debug()),
        }
    }
    shown
}
