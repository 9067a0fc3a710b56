//! Books in a file: the journal book, then the row book.

use crate::entries;
use crate::failure::{Failure, Part};
use crate::replace::replace;
use crate::source::Source;
use selquorin::{Books, Error, JOURNAL_BOOK, ROW_BOOK};
use std::path::Path;

/// The bytes of a file of books.
const KEPT: usize = JOURNAL_BOOK + ROW_BOOK;

/// The books of a file, sound or not.
pub fn books(source: &Source) -> Result<Books, Failure> {
    let bytes = source.read(KEPT + 1)?;
    let (journals, rows) = bytes.split_at(bytes.len().min(JOURNAL_BOOK));
    Books::from_bytes(journals, rows).map_err(|error| wrong_size(source, error, bytes.len()))
}

fn wrong_size(source: &Source, error: Error, bytes: usize) -> Failure {
    // A longer one wasn't read to its end.
    let has = Some(bytes).filter(|&bytes| bytes < KEPT);
    let has = has.map_or("more".to_string(), |bytes| bytes.to_string());
    let why = format!("a file of books has {KEPT} bytes, and this one has {has}");
    Failure::refused_as(Part::Books(source.clone()), error, why)
}

/// What says that books are refused, and in the words of the check why.
pub fn refused(source: &Source, books: &Books, error: Error) -> Failure {
    let why = books.check().to_string();
    Failure::refused_as(Part::Books(source.clone()), error, why)
}

/// Loads entries and keeps their books. Where an entry is refused, nothing is written.
pub fn load(source: &Source, file: &Path) -> Result<(), Failure> {
    let books = entries::books(source)?;
    keep(&books, file)
}

/// Draws the rows of kept books anew from their journals. What is refused stays as it was.
pub fn rebuild(file: &Path) -> Result<(), Failure> {
    let source = Source::File(file.to_path_buf());
    let mut books = books(&source)?;
    let rebuilt = books.rebuild();
    rebuilt.map_err(|error| refused(&source, &books, error))?;
    keep(&books, file)
}

fn keep(books: &Books, file: &Path) -> Result<(), Failure> {
    let bytes = [&books.journal_bytes()[..], &books.row_bytes()[..]].concat();
    replace(file, &bytes).map_err(Failure::of(file.display()))
}
