//! Standard output, written in large pieces. A failed write ends it: what was gathered is dropped.

use crate::failure::Failure;
use std::fmt;
use std::fs::File;
use std::io::{self, Write};
use std::os::fd::AsFd;

/// How many bytes are gathered before they are written.
const PIECE: usize = 32_768;

/// Standard output.
pub struct Output {
    file: File,
    gathered: Vec<u8>,
}

impl Output {
    /// Standard output is written as a file: the standard library's own takes one that can't be
    /// written for one that takes everything.
    pub fn open() -> Result<Output, Failure> {
        let end = io::stdout().as_fd().try_clone_to_owned();
        Ok(Output {
            file: File::from(end.map_err(failed())?),
            gathered: Vec::new(),
        })
    }

    /// Prints a text, now or later.
    pub fn print(&mut self, text: impl fmt::Display) -> Result<(), Failure> {
        write!(self.gathered, "{text}").map_err(failed())?;
        if self.gathered.len() < PIECE {
            return Ok(());
        }
        self.write()
    }

    /// Writes what is still to be written.
    pub fn close(mut self) -> Result<(), Failure> {
        self.write()
    }

    fn write(&mut self) -> Result<(), Failure> {
        self.file.write_all(&self.gathered).map_err(failed())?;
        self.gathered.clear();
        Ok(())
    }
}

fn failed() -> impl FnOnce(io::Error) -> Failure {
    Failure::of("standard output")
}

/// Prints a text that is all there is to print.
pub fn print(text: impl fmt::Display) -> Result<(), Failure> {
    let mut output = Output::open()?;
    output.print(text)?;
    output.close()
}

/// Prints a line that tells how a run ended. Where it can't be printed, what the run failed by is
/// said all the same.
pub fn print_beside(line: impl fmt::Display, ended: Result<(), Failure>) -> Result<(), Failure> {
    let printed = print(line);
    if let (Err(_), Err(failure)) = (&printed, &ended) {
        failure.say();
    }
    printed.and(ended)
}
