//! Where books come from: they are loaded from entries, or were kept in a file.

use crate::failure::Failure;
use crate::source::Source;
use crate::{entries, kept};
use selquorin::Books;

/// Where books come from.
#[derive(Debug)]
pub enum BooksFrom {
    Entries(Source),
    Kept(Source),
}

impl BooksFrom {
    /// The books. Kept ones need not be sound.
    pub fn books(&self) -> Result<Books, Failure> {
        match self {
            BooksFrom::Entries(source) => entries::books(source),
            BooksFrom::Kept(source) => kept::books(source),
        }
    }

    pub fn source(&self) -> &Source {
        match self {
            BooksFrom::Entries(source) | BooksFrom::Kept(source) => source,
        }
    }
}
