//! Why a run wasn't done: the words for people, and the status.

use crate::source::Source;
use selquorin::Error;
use std::fmt;
use std::io::{self, Write};

/// Why a run wasn't done.
#[derive(Debug)]
pub enum Failure {
    /// Refused, with its number.
    Refused(Refusal),
    /// Something couldn't be read or written.
    Stream {
        /// What couldn't.
        what: String,
        /// What the system says.
        error: io::Error,
    },
    /// The arguments say nothing that could be done.
    WrongUse(String),
}

/// What was refused, with which number, and why.
#[derive(Debug)]
pub struct Refusal {
    pub part: Part,
    pub error: Error,
    /// What the error says, or something closer.
    pub why: String,
}

/// What can be refused. A record is an entry's, and counts from 0.
#[derive(Debug)]
pub enum Part {
    Record(usize, Source),
    Books(Source),
    Ask,
    Word,
}

impl Failure {
    /// A refusal whose ground is the error's own.
    pub fn refused(part: Part, error: Error) -> Failure {
        Failure::refused_as(part, error, error.to_string())
    }

    /// A refusal with closer words for its ground.
    pub fn refused_as(part: Part, error: Error, why: String) -> Failure {
        Failure::Refused(Refusal { part, error, why })
    }

    /// What makes a failure of a system's error in reading or writing something.
    pub fn of(what: impl fmt::Display) -> impl FnOnce(io::Error) -> Failure {
        let what = what.to_string();
        |error| Failure::Stream { what, error }
    }

    /// The status with which the program ends.
    pub fn status(&self) -> u8 {
        match self {
            Failure::Refused(_) => 1,
            Failure::Stream { .. } => 2,
            Failure::WrongUse(_) => 3,
        }
    }

    /// Says it on standard error. If that can't be written either, the status still tells.
    pub fn say(&self) {
        let text = format!("selquorin: {self}\n");
        let _ = io::stderr().write_all(text.as_bytes());
    }
}

impl fmt::Display for Failure {
    fn fmt(&self, f: &mut fmt::Formatter<'_>) -> fmt::Result {
        match self {
            Failure::Refused(refusal) => refusal.fmt(f),
            Failure::Stream { what, error } => write!(f, "{what}: {error}"),
            Failure::WrongUse(why) => {
                write!(f, "{why}\nselquorin --help says how it is used")
            }
        }
    }
}

impl fmt::Display for Refusal {
    fn fmt(&self, f: &mut fmt::Formatter<'_>) -> fmt::Result {
        let Refusal { part, error, why } = self;
        if let Part::Record(_, source) | Part::Books(source) = part {
            write!(f, "{source}: ")?;
        }
        write!(f, "{part} refused, number {}: {why}", error.number())
    }
}

impl fmt::Display for Part {
    fn fmt(&self, f: &mut fmt::Formatter<'_>) -> fmt::Result {
        match self {
            Part::Record(number, _) => write!(f, "record {number}"),
            Part::Books(_) => f.write_str("books"),
            Part::Ask => f.write_str("ask"),
            Part::Word => f.write_str("word"),
        }
    }
}
