//! What the check says.

use std::fmt;

/// What the check says of the books.
#[derive(Clone, Copy, Debug, PartialEq, Eq, Hash)]
pub enum Verdict {
    /// The journal book has its form, and the row book is its picture.
    Sound,
    /// A journal record lacks its form, or is open though the one before it isn't.
    JournalRecord {
        /// Its number, 0 to 15: no record before it is wrong.
        record: usize,
    },
    /// A byte of a row isn't what the journals give, and none before it is wrong.
    RowRecord {
        /// The row's number, 0 to 999.
        row: usize,
        /// The byte in it, 0 to 63.
        byte: usize,
    },
    /// The journals have more than 1,000 live states, so no row book is their picture.
    TooManyStates,
}

impl fmt::Display for Verdict {
    fn fmt(&self, f: &mut fmt::Formatter<'_>) -> fmt::Result {
        match self {
            Verdict::Sound => write!(f, "the books are sound"),
            Verdict::JournalRecord { record } => {
                write!(f, "the journal book is wrong at record {record}")
            }
            Verdict::RowRecord { row, byte } => {
                write!(f, "the row book is wrong at row {row}, byte {byte}")
            }
            Verdict::TooManyStates => {
                write!(f, "the journals have more than 1,000 live states")
            }
        }
    }
}
