//! What is asked about.

use std::ffi::OsStr;
use std::path::Path;

/// What an outcome is about, as the command line names it.
#[derive(Clone, Copy)]
pub enum Subject<'a> {
    /// The file of a rule or template, or a whole book.
    File(&'a Path),
    /// A sheet of a book, by its serial number from 1.
    InBook { book: &'a Path, serial: usize },
    /// A path of the record's fields.
    Key(&'a OsStr),
    /// A text that is read as an instant.
    Text(&'a OsStr),
}

impl Subject<'_> {
    /// What paths begin with where the command line does not say it: a file's name without its end, with the serial number of a sheet in a book.
    /// A name that is not UTF-8 cannot be a label, which is for the library to say.
    pub fn label(self) -> Vec<u8> {
        let stem = |file: &Path| {
            let stem = file.file_stem().unwrap_or_default();
            stem.as_encoded_bytes().to_vec()
        };
        match self {
            Self::File(file) => stem(file),
            Self::InBook { book, serial } => [stem(book), format!("[{serial}]").into()].concat(),
            Self::Key(_) | Self::Text(_) => Vec::new(),
        }
    }
}
