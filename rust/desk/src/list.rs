//! The list, printed as the loading program prints it.

use crate::ask::Ask;
use crate::books_from::BooksFrom;
use crate::failure::{Failure, Part};
use crate::kept;
use crate::output::{self, Output};

/// Prints the list, or the one line of a refusal.
pub fn list(from: &BooksFrom, ask: &Ask) -> Result<(), Failure> {
    match print_list(from, ask) {
        Err(Failure::Refused(refusal)) => {
            let line = format!("refused {} {}\n", refusal.error.number(), refusal.part);
            output::print_beside(line, Err(Failure::Refused(refusal)))
        }
        ended => ended,
    }
}

/// Everything that can be refused is looked at before the first line is printed.
fn print_list(from: &BooksFrom, ask: &Ask) -> Result<(), Failure> {
    let books = from.books()?;
    let damaged = |error| kept::refused(from.source(), &books, error);
    let rows = books.live_rows().map_err(damaged)?;
    let k = books.open_journals().map_err(damaged)?;
    let (quorum, length) = ask.read(k)?;
    let words = books.list(quorum, length);
    let words = words.map_err(|error| Failure::refused(Part::Ask, error))?;

    let mut output = Output::open()?;
    output.print(format_args!("texts {k} rows {rows}\n"))?;
    let mut printed: u64 = 0;
    for (word, count) in words.with_counts() {
        let blank = if word.is_empty() { "" } else { " " };
        output.print(format_args!("{} {count}{blank}{word}\n", word.len()))?;
        printed += 1;
    }
    output.print(format_args!("end {printed}\n"))?;
    output.close()
}
