//! The entries of two bytes, as the loading program takes them.

use crate::failure::{Failure, Part};
use crate::source::Source;
use selquorin::{Books, Error, Step};

/// The bytes that can matter: 16 journals take 201 entries each at most, and one more is refused.
const MOST_BYTES: usize = 2 * (16 * 201 + 1);

/// The step of an entry that only opens.
const ONLY_OPENS: u8 = 255;

/// Books that have the journals of the entries; the first entry that is refused ends it.
pub fn books(source: &Source) -> Result<Books, Failure> {
    let bytes = source.read(MOST_BYTES)?;
    let mut books = Books::new();
    for (number, entry) in bytes.chunks(2).enumerate() {
        take(&mut books, entry)
            .map_err(|error| Failure::refused(Part::Record(number, source.clone()), error))?;
    }
    Ok(books)
}

/// Takes an entry whole or not at all.
fn take(books: &mut Books, entry: &[u8]) -> Result<(), Error> {
    let &[number, code] = entry else {
        return Err(Error::BrokenEntry);
    };
    let number = usize::from(number);
    let k = books.open_journals()?;
    match Step::new(code) {
        Ok(step) if number == k => open_and_append(books, step),
        Ok(step) if number + 1 == k => books.append(step),
        Err(_) if number == k && code == ONLY_OPENS => books.open(),
        _ => Err(Error::BrokenEntry),
    }
}

/// Both on a copy, which takes the books' place if neither is refused.
fn open_and_append(books: &mut Books, step: Step) -> Result<(), Error> {
    let mut copy = books.clone();
    copy.open()?;
    copy.append(step)?;
    *books = copy;
    Ok(())
}
