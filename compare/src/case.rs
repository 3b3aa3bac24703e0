//! A case: a book and a line, in memory or in a folder.

use std::fs;
use std::io;
use std::path::Path;

pub const BOOK_FILE: &str = "organ.book";
pub const LINE_FILE: &str = "line";

#[derive(Clone, Debug, PartialEq, Eq)]
pub struct Case {
    pub book: Vec<u8>,
    pub line: Vec<u8>,
}

impl Case {
    pub fn write(&self, folder: &Path) -> io::Result<()> {
        fs::create_dir_all(folder)?;
        fs::write(folder.join(BOOK_FILE), &self.book)?;
        fs::write(folder.join(LINE_FILE), &self.line)
    }
}

/// The book of a folder; a missing file is an empty book.
pub fn read_book(folder: &Path) -> io::Result<Vec<u8>> {
    match fs::read(folder.join(BOOK_FILE)) {
        Err(error) if error.kind() == io::ErrorKind::NotFound => Ok(Vec::new()),
        result => result,
    }
}
