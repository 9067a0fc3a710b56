//! The count of one word.

use crate::books_from::BooksFrom;
use crate::failure::{Failure, Part};
use crate::kept;
use crate::output;
use selquorin::{Books, Error, Step, Verdict};

/// Prints in how many journals the word is, and how many journals there are.
pub fn count(codes: &[usize], from: &BooksFrom) -> Result<(), Failure> {
    let books = from.books()?;
    let word = word(codes).map_err(|error| Failure::refused(Part::Word, error))?;
    let (count, k) =
        counted(&books, &word).map_err(|error| kept::refused(from.source(), &books, error))?;
    output::print(format_args!("{count} of {k}\n"))
}

fn word(codes: &[usize]) -> Result<Vec<Step>, Error> {
    let step = |&code| Step::new(u8::try_from(code).unwrap_or(u8::MAX));
    codes.iter().map(step).collect()
}

/// The books are checked first: the table count trusts them.
fn counted(books: &Books, word: &[Step]) -> Result<(u8, usize), Error> {
    if books.check() != Verdict::Sound {
        return Err(Error::Damaged);
    }
    Ok((books.table_count(word)?, books.open_journals()?))
}
