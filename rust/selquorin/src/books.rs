//! The books, in memory of their own or of the caller.

use crate::Error;
use std::fmt;
use std::ops::{Deref, DerefMut};

/// The bytes of a journal book: 16 records of 256.
pub const JOURNAL_BOOK: usize = 4096;

/// The bytes of a row book: 1,000 records of 64.
pub const ROW_BOOK: usize = 64_000;

/// A journal book and a row book, and the calls on them.
///
/// `J` and `R` say whose memory they stand in. There are three kinds: [`Books`] have memory of their
/// own, [`BooksRef`] and [`BooksMut`] borrow the caller's, to read or to write it too. Their calls
/// are the same, but that [`BooksRef`] has only those that read.
///
/// Books that were cleared, and that only [`clear`](Books::clear), [`open`](Books::open),
/// [`append`](Books::append) and [`rebuild`](Books::rebuild) have changed, are always sound. Bytes
/// that come from elsewhere may be damaged. Every call answers for these too: with
/// [`Error::Damaged`] where it needs sound books.
#[derive(Clone, Copy)]
pub struct BooksIn<J, R> {
    pub(crate) journals: J,
    pub(crate) rows: R,
}

/// Books in memory of their own, on the heap. Their calls are those of [`BooksIn`].
pub type Books = BooksIn<Box<[u8; JOURNAL_BOOK]>, Box<[u8; ROW_BOOK]>>;

/// Books in memory that the caller owns, to read: bytes from a file, or a map of one. Their calls
/// are those of [`BooksIn`] that read.
///
/// ```
/// use selquorin::{BooksRef, Error, JOURNAL_BOOK, ROW_BOOK};
///
/// # fn main() -> Result<(), Error> {
/// // A file that holds the journal book, then the row book. These are cleared ones.
/// let file = vec![0; JOURNAL_BOOK + ROW_BOOK];
/// let (journals, rows) = file.split_at(JOURNAL_BOOK);
/// let books = BooksRef::from_bytes(journals, rows)?;
/// assert_eq!(books.open_journals()?, 0);
/// # Ok(())
/// # }
/// ```
pub type BooksRef<'a> = BooksIn<&'a [u8; JOURNAL_BOOK], &'a [u8; ROW_BOOK]>;

/// Books in memory that the caller owns, to read and to write. Their calls are those of [`BooksIn`].
///
/// ```
/// use selquorin::{BooksMut, Error, Step, JOURNAL_BOOK, ROW_BOOK};
///
/// # fn main() -> Result<(), Error> {
/// let mut file = vec![0; JOURNAL_BOOK + ROW_BOOK];
/// let (journals, rows) = file.split_at_mut(JOURNAL_BOOK);
/// let mut books = BooksMut::from_bytes(journals, rows)?;
/// books.open()?;
/// books.append(Step::new(7)?)?;
/// // What was written stands in the caller's bytes: a journal is open, has one step, and that is 7.
/// assert_eq!(file[..3], [1, 1, 7]);
/// # Ok(())
/// # }
/// ```
pub type BooksMut<'a> = BooksIn<&'a mut [u8; JOURNAL_BOOK], &'a mut [u8; ROW_BOOK]>;

impl Books {
    /// Cleared books: they are sound, and have no journal.
    pub fn new() -> Books {
        let zeros = |size| vec![0; size].into_boxed_slice();
        BooksIn::of(zeros(JOURNAL_BOOK), zeros(ROW_BOOK)).expect("the books have their sizes")
    }

    /// Books that are a copy of given bytes, whatever these hold. [`check`](Books::check) says
    /// whether they are sound.
    ///
    /// # Errors
    ///
    /// [`WrongSize`](Error::WrongSize), if there are not 4,096 bytes and 64,000.
    pub fn from_bytes(journals: &[u8], rows: &[u8]) -> Result<Books, Error> {
        BooksRef::from_bytes(journals, rows)?;
        BooksIn::of(Box::<[u8]>::from(journals), Box::<[u8]>::from(rows))
    }
}

impl<'a> BooksRef<'a> {
    /// Books that are given bytes themselves, whatever these hold.
    ///
    /// # Errors
    ///
    /// [`WrongSize`](Error::WrongSize), if there are not 4,096 bytes and 64,000.
    pub fn from_bytes(journals: &'a [u8], rows: &'a [u8]) -> Result<BooksRef<'a>, Error> {
        BooksIn::of(journals, rows)
    }
}

impl<'a> BooksMut<'a> {
    /// Books that are given bytes themselves, whatever these hold, to be written where they stand.
    ///
    /// # Errors
    ///
    /// [`WrongSize`](Error::WrongSize), if there are not 4,096 bytes and 64,000.
    pub fn from_bytes(journals: &'a mut [u8], rows: &'a mut [u8]) -> Result<BooksMut<'a>, Error> {
        BooksIn::of(journals, rows)
    }
}

impl<J, R> BooksIn<J, R> {
    /// Books of two slices that have their sizes.
    fn of(journals: impl TryInto<J>, rows: impl TryInto<R>) -> Result<BooksIn<J, R>, Error> {
        Ok(BooksIn {
            journals: journals.try_into().map_err(|_| Error::WrongSize)?,
            rows: rows.try_into().map_err(|_| Error::WrongSize)?,
        })
    }
}

/// The bytes, to read.
impl<J, R> BooksIn<J, R>
where
    J: Deref<Target = [u8; JOURNAL_BOOK]>,
    R: Deref<Target = [u8; ROW_BOOK]>,
{
    /// The bytes of the journal book.
    pub fn journal_bytes(&self) -> &[u8; JOURNAL_BOOK] {
        &self.journals
    }

    /// The bytes of the row book.
    pub fn row_bytes(&self) -> &[u8; ROW_BOOK] {
        &self.rows
    }

    /// These books, borrowed to read: for a function that takes books of any kind.
    ///
    /// ```
    /// use selquorin::{Books, BooksRef, Error};
    ///
    /// fn sites(books: BooksRef<'_>) -> Result<usize, Error> {
    ///     books.open_journals()
    /// }
    ///
    /// assert_eq!(sites(Books::new().view()), Ok(0));
    /// ```
    pub fn view(&self) -> BooksRef<'_> {
        BooksIn {
            journals: self.journal_bytes(),
            rows: self.row_bytes(),
        }
    }
}

/// The bytes, to write.
impl<J, R> BooksIn<J, R>
where
    J: DerefMut<Target = [u8; JOURNAL_BOOK]>,
    R: DerefMut<Target = [u8; ROW_BOOK]>,
{
    /// The bytes of the journal book, to write. What is written may damage the books.
    pub fn journal_bytes_mut(&mut self) -> &mut [u8; JOURNAL_BOOK] {
        &mut self.journals
    }

    /// The bytes of the row book, to write. What is written may damage the books.
    pub fn row_bytes_mut(&mut self) -> &mut [u8; ROW_BOOK] {
        &mut self.rows
    }

    /// These books, borrowed to read and to write.
    ///
    /// ```
    /// use selquorin::{Books, BooksMut, Error, Step};
    ///
    /// fn take(mut books: BooksMut<'_>, steps: &[Step]) -> Result<(), Error> {
    ///     books.open()?;
    ///     steps.iter().try_for_each(|&step| books.append(step))
    /// }
    ///
    /// let mut books = Books::new();
    /// take(books.view_mut(), &[Step::new(3)?, Step::new(1)?])?;
    /// assert_eq!(books.open_journals()?, 1);
    /// # Ok::<(), Error>(())
    /// ```
    pub fn view_mut(&mut self) -> BooksMut<'_> {
        BooksIn {
            journals: &mut self.journals,
            rows: &mut self.rows,
        }
    }
}

impl Default for Books {
    fn default() -> Books {
        Books::new()
    }
}

/// Books are equal when both books have the same bytes, whosever memory they stand in.
impl<J, R, K, S> PartialEq<BooksIn<K, S>> for BooksIn<J, R>
where
    J: Deref<Target = [u8; JOURNAL_BOOK]>,
    R: Deref<Target = [u8; ROW_BOOK]>,
    K: Deref<Target = [u8; JOURNAL_BOOK]>,
    S: Deref<Target = [u8; ROW_BOOK]>,
{
    fn eq(&self, other: &BooksIn<K, S>) -> bool {
        *self.journals == *other.journals && *self.rows == *other.rows
    }
}

impl<J, R> Eq for BooksIn<J, R>
where
    J: Deref<Target = [u8; JOURNAL_BOOK]>,
    R: Deref<Target = [u8; ROW_BOOK]>,
{
}

/// What the check says, in the place of 68,096 bytes.
impl<J, R> fmt::Debug for BooksIn<J, R>
where
    J: Deref<Target = [u8; JOURNAL_BOOK]>,
    R: Deref<Target = [u8; ROW_BOOK]>,
{
    fn fmt(&self, f: &mut fmt::Formatter<'_>) -> fmt::Result {
        f.debug_struct("Books")
            .field("check", &self.check())
            .finish_non_exhaustive()
    }
}

#[cfg(test)]
mod tests {
    use super::*;

    #[test]
    fn books_have_their_sizes() {
        let bytes = vec![0; ROW_BOOK + 1];
        for (journals, rows, fits) in [
            (JOURNAL_BOOK, ROW_BOOK, true),
            (JOURNAL_BOOK - 1, ROW_BOOK, false),
            (JOURNAL_BOOK + 1, ROW_BOOK, false),
            (JOURNAL_BOOK, ROW_BOOK - 1, false),
            (JOURNAL_BOOK, ROW_BOOK + 1, false),
            (0, 0, false),
        ] {
            let (j, r) = (&bytes[..journals], &bytes[..rows]);
            let wanted = if fits { None } else { Some(Error::WrongSize) };
            assert_eq!(Books::from_bytes(j, r).err(), wanted);
            assert_eq!(BooksRef::from_bytes(j, r).err(), wanted);
            let (j, r) = (&mut j.to_vec(), &mut r.to_vec());
            assert_eq!(BooksMut::from_bytes(j, r).err(), wanted);
        }
    }

    #[test]
    fn borrowed_books_are_the_callers_bytes() {
        let (mut journals, mut rows) = (vec![0; JOURNAL_BOOK], vec![0; ROW_BOOK]);
        let mut books = BooksMut::from_bytes(&mut journals, &mut rows).unwrap();
        books.open().unwrap();
        let owned = Books::from_bytes(books.journal_bytes(), books.row_bytes()).unwrap();
        let read = BooksRef::from_bytes(&journals, &rows).unwrap();
        assert_eq!(read.journal_bytes().as_ptr(), journals.as_ptr());
        assert_eq!(read.row_bytes().as_ptr(), rows.as_ptr());
        assert_eq!(read, owned);
        assert_ne!(owned, Books::new());
    }

    #[test]
    fn books_are_shown_by_what_the_check_says() {
        let mut books = Books::new();
        let sound = "Books { check: Sound, .. }";
        assert_eq!(format!("{books:?}"), sound);
        assert_eq!(format!("{:?}", books.view()), sound);
        assert_eq!(format!("{:?}", books.view_mut()), sound);
        books.row_bytes_mut()[65] = 1;
        let wrong = "Books { check: RowRecord { row: 1, byte: 1 }, .. }";
        assert_eq!(format!("{books:?}"), wrong);
    }
}
