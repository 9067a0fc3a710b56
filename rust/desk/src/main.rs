//! The program for the desk: what the books answer, for the shell and for jobs that run by the
//! clock.

#![forbid(unsafe_code)]

mod arguments;
mod ask;
mod books_from;
mod check;
mod count;
mod entries;
mod failure;
mod given;
mod kept;
mod list;
mod output;
mod replace;
mod source;

use arguments::Command;
use failure::Failure;
use std::process::ExitCode;

const HELP: &str = include_str!("help.txt");
const VERSION: &str = concat!("selquorin ", env!("CARGO_PKG_VERSION"), "\n");

fn run(command: Command) -> Result<(), Failure> {
    match command {
        Command::Help => output::print(HELP),
        Command::Version => output::print(VERSION),
        Command::List { books, ask } => list::list(&books, &ask),
        Command::Count { codes, books } => count::count(&codes, &books),
        Command::Load { entries, file } => kept::load(&entries, &file),
        Command::Check { books } => check::check(&books),
        Command::Rebuild { file } => kept::rebuild(&file),
    }
}

fn main() -> ExitCode {
    let words = std::env::args_os().skip(1).collect();
    match arguments::command(words).and_then(run) {
        Ok(()) => ExitCode::SUCCESS,
        Err(failure) => {
            failure.say();
            ExitCode::from(failure.status())
        }
    }
}
