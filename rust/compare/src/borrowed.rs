//! A call made by the safe types of the crate `selquorin`, on books that are borrowed.

use crate::{Answer, Call};
use selquorin::{BooksMut, BooksRef, Error, Step, Verdict, Word, Words, WORD_RECORD};

/// What a call answers; none where the safe types rule it out: for books of a wrong size, a step
/// above 15, a word record of wrong form, or an output that isn't whole word records.
pub fn made(journals: &mut [u8], rows: &mut [u8], call: &Call, out: &mut [u8]) -> Option<Answer> {
    let mut books = BooksMut::from_bytes(journals, rows).ok()?;
    let done = match call {
        Call::Clear => {
            books.clear();
            Ok(())
        }
        Call::Open => books.open(),
        Call::Append(code) => books.append(Step::new(*code).ok()?),
        Call::Rebuild => books.rebuild(),
        _ => return read(BooksRef::from_bytes(journals, rows).ok()?, call, out),
    };
    Some(answer(done.map(|()| (0, 0, 0))))
}

/// What a call that reads answers.
fn read(books: BooksRef<'_>, call: &Call, out: &mut [u8]) -> Option<Answer> {
    let count = |count: u8| (count.into(), 0, 0);
    let found = |found: usize| (found, 0, 0);
    Some(match call {
        Call::TableCount(codes) => {
            let steps: Result<Vec<Step>, Error> = codes.iter().map(|&c| Step::new(c)).collect();
            answer(books.table_count(&steps.ok()?).map(count))
        }
        Call::JournalCount(record) => {
            let word = Word::from_record(record).ok()?;
            answer(books.journal_count(&word).map(count))
        }
        Call::OpenJournals => answer(books.open_journals().map(found)),
        Call::LiveRows => answer(books.live_rows().map(found)),
        Call::Check => checked(books.check()),
        Call::List {
            quorum,
            length,
            after,
            record,
            ..
        } => {
            if record.len() != WORD_RECORD || out.len() % WORD_RECORD != 0 {
                return None;
            }
            let after = match after {
                0 => None,
                _ => Some(Word::from_record(record).ok()?),
            };
            let page = out.len() / WORD_RECORD;
            let words = books.list_paged(*quorum, *length, after.as_ref(), page);
            answer(words.map(|words| first_page(words, out)))
        }
        Call::Row(row) => answer(books.row(*row).map(|_| (0, 0, 0))),
        _ => unreachable!("{call:?} writes"),
    })
}

fn answer(result: Result<(usize, usize, usize), Error>) -> Answer {
    match result {
        Ok((first, second, third)) => Answer::new(0, first, second, third),
        Err(error) => Answer::new(error.number(), 0, 0, 0),
    }
}

fn checked(verdict: Verdict) -> Answer {
    match verdict {
        Verdict::Sound => Answer::new(0, 0, 0, 0),
        Verdict::JournalRecord { record } => Answer::new(2, 1, record, 0),
        Verdict::RowRecord { row, byte } => Answer::new(2, 2, row, byte),
        Verdict::TooManyStates => Answer::new(2, 2, 1000, 0),
    }
}

/// Writes the words of the first page, and says whether there are more and how many they are.
fn first_page(words: Words<'_>, out: &mut [u8]) -> (usize, usize, usize) {
    let (least, most) = words.size_hint();
    let more = usize::from(most.is_none());
    let fetched = least - more;
    for (record, word) in out.chunks_exact_mut(WORD_RECORD).zip(words.take(fetched)) {
        record.copy_from_slice(&word.record());
    }
    (more, fetched, 0)
}
