//! The check of kept books.

use crate::failure::Failure;
use crate::kept;
use crate::output;
use crate::source::Source;
use selquorin::{Error, Verdict};

/// Prints that the books are sound, or where the first fault is.
pub fn check(source: &Source) -> Result<(), Failure> {
    let books = kept::books(source)?;
    let verdict = books.check();
    let ended = match verdict {
        Verdict::Sound => Ok(()),
        _ => Err(kept::refused(source, &books, Error::Damaged)),
    };
    output::print_beside(line(verdict), ended)
}

fn line(verdict: Verdict) -> String {
    match verdict {
        Verdict::Sound => "sound\n".to_string(),
        Verdict::JournalRecord { record } => fault(1, record, 0),
        Verdict::RowRecord { row, byte } => fault(2, row, byte),
        Verdict::TooManyStates => fault(2, 1000, 0),
    }
}

fn fault(book: u8, record: usize, byte: usize) -> String {
    format!("book {book} record {record} byte {byte}\n")
}
