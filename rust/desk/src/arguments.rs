//! What the arguments say.

use crate::ask::Ask;
use crate::books_from::BooksFrom;
use crate::failure::Failure;
use crate::given::{number, Given};
use crate::source::Source;
use std::ffi::{OsStr, OsString};
use std::path::PathBuf;

const BOOKS: &str = "--books";
const QUORUM: &str = "--quorum";
const LENGTH: &str = "--length";
const ASK: &str = "--ask";
const FROM: &str = "--from";

/// What is to be done.
#[derive(Debug)]
pub enum Command {
    Help,
    Version,
    List { books: BooksFrom, ask: Ask },
    Count { codes: Vec<usize>, books: BooksFrom },
    Load { entries: Source, file: PathBuf },
    Check { books: Source },
    Rebuild { file: PathBuf },
}

/// Reads the program's arguments. Help and version go before all else, wherever they stand.
pub fn command(mut words: Vec<OsString>) -> Result<Command, Failure> {
    let mut options = words.iter().take_while(|&word| word != "--");
    if let Some(command) = options.find_map(|word| help_or_version(word)) {
        return Ok(command);
    }
    if words.is_empty() {
        return Err(Failure::WrongUse("no command is given".to_string()));
    }
    let name = words.remove(0);
    match name.to_str() {
        Some("list") => list(Given::new("list", &[BOOKS, QUORUM, LENGTH, ASK], words)?),
        Some("count") => count(Given::new("count", &[FROM, BOOKS], words)?),
        Some("load") => load(Given::new("load", &[BOOKS], words)?),
        Some("check") => check(Given::new("check", &[BOOKS], words)?),
        Some("rebuild") => rebuild(Given::new("rebuild", &[BOOKS], words)?),
        _ => {
            let why = format!("there is no command {}", name.to_string_lossy());
            Err(Failure::WrongUse(why))
        }
    }
}

fn help_or_version(word: &OsStr) -> Option<Command> {
    match word.to_str()? {
        "--help" | "-h" => Some(Command::Help),
        "--version" | "-V" => Some(Command::Version),
        _ => None,
    }
}

fn list(given: Given) -> Result<Command, Failure> {
    let file = at_most_one(&given)?;
    let books = books_from(&given, file, "a file of entries")?;
    let ask = Ask {
        quorum: given.number(QUORUM)?,
        length: given.number(LENGTH)?,
        file: given.value(ASK).map(Source::named),
    };
    if ask.length.is_some() && ask.file.is_some() {
        return Err(given.wrong(format!("{LENGTH} and {ASK} don't go together")));
    }
    if ask.file == Some(Source::StandardInput) && *books.source() == Source::StandardInput {
        return Err(given.wrong("standard input can't be both books and ask".to_string()));
    }
    Ok(Command::List { books, ask })
}

fn count(given: Given) -> Result<Command, Failure> {
    let books = books_from(&given, given.value(FROM), FROM)?;
    let code = |word: &OsString| {
        let why = || given.wrong(format!("{} is no step", word.to_string_lossy()));
        number(word).ok_or_else(why)
    };
    let codes = given.others.iter().map(code).collect::<Result<_, _>>()?;
    Ok(Command::Count { codes, books })
}

fn load(given: Given) -> Result<Command, Failure> {
    let entries = at_most_one(&given)?.map_or(Source::StandardInput, Source::named);
    let file = file_of_books(&given)?;
    Ok(Command::Load { entries, file })
}

fn check(given: Given) -> Result<Command, Failure> {
    none(&given)?;
    let books = kept_books(&given)?;
    Ok(Command::Check { books })
}

fn rebuild(given: Given) -> Result<Command, Failure> {
    none(&given)?;
    let file = file_of_books(&given)?;
    Ok(Command::Rebuild { file })
}

/// Kept books, or entries: those of a file, or of standard input where none is named.
fn books_from(given: &Given, file: Option<&OsStr>, called: &str) -> Result<BooksFrom, Failure> {
    match (file, given.value(BOOKS)) {
        (Some(_), Some(_)) => Err(given.wrong(format!("{called} and {BOOKS} don't go together"))),
        (_, Some(books)) => Ok(BooksFrom::Kept(Source::named(books))),
        (Some(file), None) => Ok(BooksFrom::Entries(Source::named(file))),
        (None, None) => Ok(BooksFrom::Entries(Source::StandardInput)),
    }
}

fn kept_books(given: &Given) -> Result<Source, Failure> {
    let missing = || given.wrong(format!("{BOOKS} is missing"));
    given.value(BOOKS).map(Source::named).ok_or_else(missing)
}

/// Books that are to be written have a file of their own.
fn file_of_books(given: &Given) -> Result<PathBuf, Failure> {
    match kept_books(given)? {
        Source::File(file) => Ok(file),
        Source::StandardInput => Err(given.wrong(format!("{BOOKS} has to be a file"))),
    }
}

fn none(given: &Given) -> Result<(), Failure> {
    given
        .others
        .first()
        .map_or(Ok(()), |word| Err(given.unknown(word)))
}

fn at_most_one(given: &Given) -> Result<Option<&OsStr>, Failure> {
    match &given.others[..] {
        [] => Ok(None),
        [word] => Ok(Some(word)),
        [_, second, ..] => Err(given.unknown(second)),
    }
}
