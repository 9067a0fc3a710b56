//! In how many journals a word is, and the words that a quorum has in common.
//!
//! Up to 16 journals, each a row of up to 200 steps, stand in [`Books`]: a journal book and a row
//! book, which holds the journals' subsequence automaton as a table. A journal holds a word, and the
//! word is *in* it, when striking out some of the journal's steps, or none, leaves the word. The
//! books answer in how many journals a word is, and list the words that at least a given number of
//! journals hold.
//!
//! A word's *place* in a journal is where it ends if each of its steps is found as early as can be:
//! the number of that step, from 1, and 0 for the empty word. It is *lost* where the word isn't in.
//! The places of a word, one in each journal, are a *state*, and it is *live* if one of them isn't
//! lost. The table, or *picture*, has a *row* for each live state: its places, its count, and by
//! each step an *arc* to the row of the words with that step more. Books are *sound* when the
//! journal book has its form and the row book is the picture of its journals.
//!
//! The calls themselves are proved and come from the static library `libselquorin.a`. This crate
//! only lends it memory: [`Books`], [`Word`]s and [`Step`]s have right sizes and codes once they are
//! made, and the library's numbers become [`Error`]s and a [`Verdict`]. [`Books`] have memory of
//! their own. [`BooksRef`] and [`BooksMut`] are books in the caller's memory, such as a map of a
//! file. The page of [`BooksIn`] has the calls of all three. The module [`raw`] has the library's
//! calls as they are, for bytes of any length and content.
//!
//! The calls keep their scratch on the stack. [`Books::append`] takes the most of it: about 140 KB,
//! so that a thread with 136 KB of stack dies and one with 144 KB lives. A thread that makes calls
//! should have 256 KB, as the header for C asks too; what Rust gives a thread by itself is more.
//!
//! ```
//! use selquorin::{Books, Error, Step, Verdict, Word};
//!
//! # fn main() -> Result<(), Error> {
//! // Two journals of three steps each.
//! let mut books = Books::new();
//! for journal in [[1, 2, 1], [1, 1, 2]] {
//!     books.open()?;
//!     for code in journal {
//!         books.append(Step::new(code)?)?;
//!     }
//! }
//! assert_eq!(books.check(), Verdict::Sound);
//! assert_eq!(books.open_journals()?, 2);
//! assert_eq!(books.live_rows()?, 6);
//!
//! // How many journals hold a word: by the table, and from the journals alone.
//! let word = Word::new(&[1, 2, 1])?;
//! assert_eq!(books.table_count(word.steps())?, 1);
//! assert_eq!(books.journal_count(&word)?, 1);
//! assert_eq!(books.table_count(&[])?, 2);
//!
//! // The words of up to three steps that both journals hold, in dictionary order.
//! let shared: Vec<String> = books.list(2, 3)?.map(|word| word.to_string()).collect();
//! assert_eq!(shared, ["", "1", "1 1", "1 2", "2"]);
//!
//! // The words that some journal holds, each with its count.
//! for (word, count) in books.list(1, 3)?.with_counts() {
//!     println!("{word}: in {count} journals");
//! }
//!
//! // The third row of the table: the first journal at place 2, the second at place 3.
//! let row = books.row(2)?;
//! assert_eq!(row.places()[..2], [Some(2), Some(3)]);
//! assert_eq!(row.count(), 2);
//!
//! // A refusal changes nothing, and says why.
//! assert_eq!(books.list(3, 3).err(), Some(Error::WrongQuorum));
//! # Ok(())
//! # }
//! ```

#![deny(unsafe_code)]

mod books;
mod calls;
mod error;
mod list;
#[allow(unsafe_code)]
pub mod raw;
mod row;
mod verdict;
mod word;

pub use books::{Books, BooksIn, BooksMut, BooksRef, JOURNAL_BOOK, ROW_BOOK};
pub use error::Error;
pub use list::{Words, WordsWithCounts, LARGEST_PAGE};
pub use row::{Row, ROW_RECORD};
pub use verdict::Verdict;
pub use word::{Step, Word, LONGEST_WORD, WORD_RECORD};
