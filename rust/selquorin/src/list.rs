//! The list, fetched page by page.

use crate::error::done;
use crate::{raw, BooksRef, Error, Word, WORD_RECORD};
use std::fmt;
use std::iter::FusedIterator;

/// The most words that one call of the list hands out: 4,096, in 65,536 bytes.
pub const LARGEST_PAGE: usize = 4096;

/// The listed words, in dictionary order: made by [`list`](crate::Books::list) and its kin.
///
/// It holds one page of them. When that is used up it fetches the next one, after the page's last
/// word. The books are borrowed as long as it lives, so that what it lists can't change under it.
#[derive(Clone)]
pub struct Words<'a> {
    books: BooksRef<'a>,
    quorum: usize,
    length: usize,
    page: Vec<u8>,
    /// The words of the page, and how many of them were handed out.
    written: usize,
    taken: usize,
    /// Whether a further page remains.
    more: bool,
}

impl<'a> Words<'a> {
    pub(crate) fn new(
        books: BooksRef<'a>,
        quorum: usize,
        length: usize,
        after: Option<&Word>,
        page: usize,
    ) -> Result<Words<'a>, Error> {
        // A page that is too large is refused by the library; this keeps it from being made.
        let page = page.min(LARGEST_PAGE + 1);
        let mut words = Words {
            books,
            quorum,
            length,
            page: vec![0; WORD_RECORD * page],
            written: 0,
            taken: 0,
            more: false,
        };
        words.fetch(after)?;
        Ok(words)
    }

    /// The words that are left, each with its count: in how many journals it is.
    ///
    /// ```
    /// # use selquorin::{Books, Error, Step};
    /// # fn main() -> Result<(), Error> {
    /// let mut books = Books::new();
    /// for journal in [[4, 9], [9, 4]] {
    ///     books.open()?;
    ///     for code in journal {
    ///         books.append(Step::new(code)?)?;
    ///     }
    /// }
    /// // The words that one journal holds and the other doesn't.
    /// let words = books.list(1, 2)?.with_counts();
    /// let alone = words.filter(|(_, count)| *count == 1);
    /// let alone: Vec<String> = alone.map(|(word, _)| word.to_string()).collect();
    /// assert_eq!(alone, ["4 9", "9 4"]);
    /// # Ok(())
    /// # }
    /// ```
    pub fn with_counts(self) -> WordsWithCounts<'a> {
        WordsWithCounts { words: self }
    }

    /// Fetches a page: from the start, or after a word.
    fn fetch(&mut self, after: Option<&Word>) -> Result<(), Error> {
        let answer = raw::list(
            self.books.journal_bytes(),
            self.books.row_bytes(),
            self.quorum,
            self.length,
            u8::from(after.is_some()),
            &after.copied().unwrap_or(Word::EMPTY).record(),
            &mut self.page,
        );
        done(answer.number)?;
        self.written = answer.written;
        self.taken = 0;
        self.more = answer.more;
        Ok(())
    }

    /// A word of the page.
    fn word(&self, at: usize) -> Word {
        let record = &self.page[WORD_RECORD * at..WORD_RECORD * (at + 1)];
        Word::from_record(record).expect("the list writes word records")
    }
}

impl Iterator for Words<'_> {
    type Item = Word;

    fn next(&mut self) -> Option<Word> {
        if self.taken == self.written && self.more {
            let last = self.word(self.written - 1);
            self.fetch(Some(&last))
                .expect("the books and the ask are those of the first page");
        }
        if self.taken == self.written {
            return None;
        }
        self.taken += 1;
        Some(self.word(self.taken - 1))
    }

    fn size_hint(&self) -> (usize, Option<usize>) {
        let left = self.written - self.taken;
        (left + usize::from(self.more), (!self.more).then_some(left))
    }
}

impl FusedIterator for Words<'_> {}

/// The ask, and how many words of the page are left, in the place of the page.
impl fmt::Debug for Words<'_> {
    fn fmt(&self, f: &mut fmt::Formatter<'_>) -> fmt::Result {
        f.debug_struct("Words")
            .field("quorum", &self.quorum)
            .field("length", &self.length)
            .field("fetched", &(self.written - self.taken))
            .field("more", &self.more)
            .finish_non_exhaustive()
    }
}

/// The listed words, each with its count: made by [`Words::with_counts`].
#[derive(Clone, Debug)]
pub struct WordsWithCounts<'a> {
    words: Words<'a>,
}

impl Iterator for WordsWithCounts<'_> {
    type Item = (Word, u8);

    fn next(&mut self) -> Option<(Word, u8)> {
        let word = self.words.next()?;
        let count = self.words.books.table_count(word.steps());
        Some((word, count.expect("the books that are listed are sound")))
    }

    fn size_hint(&self) -> (usize, Option<usize>) {
        self.words.size_hint()
    }
}

impl FusedIterator for WordsWithCounts<'_> {}

#[cfg(test)]
mod tests {
    use crate::{Books, Step};

    #[test]
    fn words_are_shown_without_their_page() {
        let mut books = Books::new();
        books.open().unwrap();
        books.append(Step::default()).unwrap();
        books.append(Step::default()).unwrap();
        let mut words = books.list_paged(1, 15, None, 2).unwrap();
        words.next();
        let first = "Words { quorum: 1, length: 15, fetched: 1, more: true, .. }";
        assert_eq!(format!("{words:?}"), first);
        let counted = words.with_counts();
        let wanted = format!("WordsWithCounts {{ words: {first} }}");
        assert_eq!(format!("{counted:?}"), wanted);
    }
}
