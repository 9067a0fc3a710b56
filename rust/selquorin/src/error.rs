//! The numbers of refusals, as errors.

use std::fmt;

/// Why a call was refused. A refused call has changed nothing.
///
/// Further numbers may come, so that a `match` needs an arm for them.
///
/// ```
/// use selquorin::{Books, Error};
///
/// match Books::new().list(1, 3) {
///     Ok(words) => words.for_each(|word| println!("{word}")),
///     Err(Error::WrongQuorum) => println!("there are too few journals"),
///     Err(error) => println!("refused {}: {error}", error.number()),
/// }
/// ```
#[derive(Clone, Copy, Debug, PartialEq, Eq, Hash)]
#[non_exhaustive]
pub enum Error {
    /// 1: wrong size of a book, the list's output or a word record.
    WrongSize,
    /// 2: the books are damaged. [`Books::check`](crate::Books::check) says where.
    Damaged,
    /// 3: a step above 15.
    WrongStep,
    /// 4: a step was to be appended, but no journal is open.
    NoJournal,
    /// 5: the last journal has 200 steps.
    JournalFull,
    /// 6: there would be more than 1,000 rows.
    RowsFull,
    /// 7: 16 journals are open already.
    JournalsFull,
    /// 8: the quorum is below 1 or above the number of journals.
    WrongQuorum,
    /// 9: the list length is above 15.
    WrongLength,
    /// 10: a word record lacks its form, or exceeds the list length.
    WrongWord,
    /// 11: a broken journal entry. Only the loading program gives it.
    BrokenEntry,
    /// 12: the ask file has neither 0 nor 2 bytes. Only the loading program gives it.
    WrongAsk,
    /// 13: no such row: they have the numbers 0 to 999.
    WrongRow,
}

impl Error {
    /// Every error, in the order of the numbers from 1 on.
    pub const ALL: &'static [Error] = &[
        Error::WrongSize,
        Error::Damaged,
        Error::WrongStep,
        Error::NoJournal,
        Error::JournalFull,
        Error::RowsFull,
        Error::JournalsFull,
        Error::WrongQuorum,
        Error::WrongLength,
        Error::WrongWord,
        Error::BrokenEntry,
        Error::WrongAsk,
        Error::WrongRow,
    ];

    /// Its number, from 1 on: the same as in C, and as the loading program prints.
    pub fn number(self) -> u8 {
        self as u8 + 1
    }

    /// The error of a number; none for 0, which says that a call is done, and for those above all.
    pub fn from_number(number: u8) -> Option<Error> {
        let at = usize::from(number).checked_sub(1)?;
        Error::ALL.get(at).copied()
    }
}

impl fmt::Display for Error {
    fn fmt(&self, f: &mut fmt::Formatter<'_>) -> fmt::Result {
        f.write_str(match self {
            Error::WrongSize => "wrong size of a book, the list's output or a word record",
            Error::Damaged => "the books are damaged: check says where",
            Error::WrongStep => "a step's code is above 15",
            Error::NoJournal => "no journal is open that the step could be appended to",
            Error::JournalFull => "the last journal is full: it has 200 steps",
            Error::RowsFull => "no room: there would be more than 1,000 rows",
            Error::JournalsFull => "no room: 16 journals are open already",
            Error::WrongQuorum => "the quorum is not between 1 and the number of journals",
            Error::WrongLength => "the list's length is above 15",
            Error::WrongWord => "the word is not well formed, or is longer than asked for",
            Error::BrokenEntry => "a journal entry is broken",
            Error::WrongAsk => "the ask file has neither 0 nor 2 bytes",
            Error::WrongRow => "there is no such row: rows have the numbers 0 to 999",
        })
    }
}

impl std::error::Error for Error {}

/// What a number says: done, or the error.
pub(crate) fn done(number: u8) -> Result<(), Error> {
    match Error::from_number(number) {
        None => {
            assert_eq!(number, 0, "the library answers 0 to 13");
            Ok(())
        }
        Some(error) => Err(error),
    }
}

#[cfg(test)]
mod tests {
    use super::*;

    #[test]
    fn numbers_and_errors_belong_together() {
        for (&error, number) in Error::ALL.iter().zip(1..) {
            assert_eq!(error.number(), number);
            assert_eq!(Error::from_number(number), Some(error));
            assert_eq!(done(number), Err(error));
        }
        assert_eq!(Error::from_number(0), None);
        assert_eq!(Error::from_number(14), None);
        assert_eq!(Error::from_number(255), None);
        assert_eq!(done(0), Ok(()));
    }

    #[test]
    fn every_error_has_its_own_message() {
        let mut messages: Vec<String> = Error::ALL.iter().map(|e| e.to_string()).collect();
        assert!(messages.iter().all(|message| !message.is_empty()));
        messages.sort();
        messages.dedup();
        assert_eq!(messages.len(), Error::ALL.len());
    }
}
