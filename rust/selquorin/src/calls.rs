//! The calls on the books: those that read, and those that write.

use crate::error::done;
use crate::{raw, BooksIn, Error, Row, Step, Verdict, Word, Words};
use crate::{JOURNAL_BOOK, LARGEST_PAGE, ROW_BOOK, ROW_RECORD};
use std::ops::{Deref, DerefMut};

/// The bytes of a journal record: one that says whether it is open, the length, and the steps.
const JOURNAL_RECORD: usize = 256;

/// The calls that read.
impl<J, R> BooksIn<J, R>
where
    J: Deref<Target = [u8; JOURNAL_BOOK]>,
    R: Deref<Target = [u8; ROW_BOOK]>,
{
    /// In how many journals a word is, by the row book alone: one look at the table for each step.
    /// The word may have any length.
    ///
    /// It trusts the row book, and is right if the books are sound. Where something hangs on the
    /// count, [`check`](BooksIn::check) books that come from elsewhere first.
    ///
    /// # Errors
    ///
    /// [`Damaged`](Error::Damaged), if the walk along the table meets a byte that can't be right.
    pub fn table_count(&self, word: &[Step]) -> Result<u8, Error> {
        let answer = raw::table_count(&self.rows[..], raw::codes(word));
        done(answer.number).map(|()| answer.count)
    }

    /// In how many journals a word is, from the journals alone. It reads the journal book only.
    ///
    /// # Errors
    ///
    /// [`Damaged`](Error::Damaged), if the journal book lacks its form.
    pub fn journal_count(&self, word: &Word) -> Result<u8, Error> {
        let answer = raw::journal_count(&self.journals[..], &word.record());
        done(answer.number).map(|()| answer.count)
    }

    /// How many journals are open, 0 to 16. It reads the journal book only.
    ///
    /// # Errors
    ///
    /// [`Damaged`](Error::Damaged), if the journal book lacks its form.
    pub fn open_journals(&self) -> Result<usize, Error> {
        let answer = raw::open_journals(&self.journals[..]);
        done(answer.number).map(|()| answer.journals)
    }

    /// The journals that are open, each as its steps. It reads the journal book only.
    ///
    /// ```
    /// # use selquorin::{Books, Error, Step};
    /// # fn main() -> Result<(), Error> {
    /// let mut books = Books::new();
    /// books.open()?;
    /// books.append(Step::new(7)?)?;
    /// books.append(Step::new(2)?)?;
    /// books.open()?;
    /// for (number, steps) in books.journals()?.enumerate() {
    ///     println!("journal {number} has {} steps", steps.len());
    /// }
    /// # assert!(books.journals()?.map(<[Step]>::len).eq([2, 0]));
    /// # Ok(())
    /// # }
    /// ```
    ///
    /// # Errors
    ///
    /// [`Damaged`](Error::Damaged), if the journal book lacks its form.
    pub fn journals(&self) -> Result<impl ExactSizeIterator<Item = &[Step]>, Error> {
        let open = self.open_journals()?;
        let records = self.journals.chunks_exact(JOURNAL_RECORD).take(open);
        Ok(records.map(|record| {
            let codes = &record[2..2 + usize::from(record[1])];
            raw::steps(codes).expect("the journal book has its form")
        }))
    }

    /// The steps of a journal, counted from 0; none if so many journals aren't open.
    ///
    /// ```
    /// # use selquorin::{Books, Error, Step};
    /// # fn main() -> Result<(), Error> {
    /// let mut books = Books::new();
    /// books.open()?;
    /// books.append(Step::new(7)?)?;
    /// assert_eq!(books.journal(0)?, Some(&[Step::new(7)?][..]));
    /// assert_eq!(books.journal(1)?, None);
    /// # Ok(())
    /// # }
    /// ```
    ///
    /// # Errors
    ///
    /// [`Damaged`](Error::Damaged), if the journal book lacks its form.
    pub fn journal(&self, journal: usize) -> Result<Option<&[Step]>, Error> {
        Ok(self.journals()?.nth(journal))
    }

    /// How many rows are live, 0 to 1,000: one for each live state of the journals. They are the
    /// first rows of the table.
    ///
    /// ```
    /// # use selquorin::{Books, Error, Step};
    /// # fn main() -> Result<(), Error> {
    /// let mut books = Books::new();
    /// assert_eq!(books.live_rows()?, 0);
    /// books.open()?;
    /// books.append(Step::new(7)?)?;
    /// for number in 0..books.live_rows()? {
    ///     let row = books.row(number)?;
    ///     assert_eq!(row.place(0).map(usize::from), Some(number));
    /// }
    /// # Ok(())
    /// # }
    /// ```
    ///
    /// # Errors
    ///
    /// [`Damaged`](Error::Damaged), unless the books are sound.
    pub fn live_rows(&self) -> Result<usize, Error> {
        let answer = raw::live_rows(&self.journals[..], &self.rows[..]);
        done(answer.number).map(|()| answer.rows)
    }

    /// A row of the table, 0 to 999: a part of the row book itself, whatever it holds.
    ///
    /// # Errors
    ///
    /// [`WrongRow`](Error::WrongRow).
    pub fn row(&self, row: usize) -> Result<Row<'_>, Error> {
        done(raw::row_record_number(&self.rows[..], row))?;
        let record = &self.rows[ROW_RECORD * row..ROW_RECORD * (row + 1)];
        Ok(Row::new(record.try_into().expect("a row has 64 bytes")))
    }

    /// Checks both books: whether they are sound, and if not, where the first fault is.
    pub fn check(&self) -> Verdict {
        let answer = raw::check(&self.journals[..], &self.rows[..]);
        match (answer.number, answer.book) {
            (0, _) => Verdict::Sound,
            (2, 1) => Verdict::JournalRecord {
                record: answer.record,
            },
            (2, 2) if answer.record == 1000 => Verdict::TooManyStates,
            (2, 2) => Verdict::RowRecord {
                row: answer.record,
                byte: answer.byte,
            },
            other => unreachable!("the check of whole books answers no {other:?}"),
        }
    }

    /// The words of up to `length` steps that at least `quorum` journals hold, in dictionary order;
    /// with [`with_counts`](Words::with_counts), each with its count.
    ///
    /// # Errors
    ///
    /// [`Damaged`](Error::Damaged), [`WrongLength`](Error::WrongLength),
    /// [`WrongQuorum`](Error::WrongQuorum).
    pub fn list(&self, quorum: usize, length: usize) -> Result<Words<'_>, Error> {
        self.list_paged(quorum, length, None, LARGEST_PAGE)
    }

    /// The same list from behind a word on, which need not be in the list itself.
    ///
    /// # Errors
    ///
    /// Those of [`list`](BooksIn::list), and [`WrongWord`](Error::WrongWord) if the word has more
    /// than `length` steps.
    pub fn list_after(
        &self,
        quorum: usize,
        length: usize,
        word: &Word,
    ) -> Result<Words<'_>, Error> {
        self.list_paged(quorum, length, Some(word), LARGEST_PAGE)
    }

    /// The same list, fetched by `page` words at a time, 1 to [`LARGEST_PAGE`]. Each page is one
    /// call, which checks the books first, so that small pages take longer.
    ///
    /// # Errors
    ///
    /// Those of [`list_after`](BooksIn::list_after), and [`WrongSize`](Error::WrongSize) for a page
    /// of no word or of more than [`LARGEST_PAGE`].
    pub fn list_paged(
        &self,
        quorum: usize,
        length: usize,
        after: Option<&Word>,
        page: usize,
    ) -> Result<Words<'_>, Error> {
        Words::new(self.view(), quorum, length, after, page)
    }
}

/// The calls that write.
impl<J, R> BooksIn<J, R>
where
    J: DerefMut<Target = [u8; JOURNAL_BOOK]>,
    R: DerefMut<Target = [u8; ROW_BOOK]>,
{
    /// Makes every byte of both books zero: there is no journal then. Works on damaged books too.
    pub fn clear(&mut self) {
        let number = raw::clear(&mut self.journals[..], &mut self.rows[..]);
        done(number).expect("the books have their sizes");
    }

    /// Opens an empty journal behind the others.
    ///
    /// # Errors
    ///
    /// [`Damaged`](Error::Damaged), [`JournalsFull`](Error::JournalsFull).
    pub fn open(&mut self) -> Result<(), Error> {
        done(raw::open(&mut self.journals[..], &mut self.rows[..]))
    }

    /// Appends a step to the journal opened last.
    ///
    /// # Errors
    ///
    /// [`Damaged`](Error::Damaged), [`NoJournal`](Error::NoJournal),
    /// [`JournalFull`](Error::JournalFull), [`RowsFull`](Error::RowsFull).
    pub fn append(&mut self, step: Step) -> Result<(), Error> {
        let number = raw::append(&mut self.journals[..], &mut self.rows[..], step.code());
        done(number)
    }

    /// Draws the row book anew from the journal book alone, whatever the row book held: the books
    /// are sound then. So a row book can be mended, or left out of what is kept.
    ///
    /// ```
    /// # use selquorin::{Books, Error, Step, Verdict};
    /// # fn main() -> Result<(), Error> {
    /// let mut books = Books::new();
    /// books.open()?;
    /// books.append(Step::new(7)?)?;
    /// books.row_bytes_mut().fill(99);
    /// assert_eq!(books.check(), Verdict::RowRecord { row: 0, byte: 0 });
    /// books.rebuild()?;
    /// assert_eq!(books.check(), Verdict::Sound);
    /// # Ok(())
    /// # }
    /// ```
    ///
    /// # Errors
    ///
    /// [`Damaged`](Error::Damaged), if the journal book lacks its form;
    /// [`RowsFull`](Error::RowsFull), if its journals have more than 1,000 live states.
    pub fn rebuild(&mut self) -> Result<(), Error> {
        done(raw::rebuild(&self.journals[..], &mut self.rows[..]))
    }
}
