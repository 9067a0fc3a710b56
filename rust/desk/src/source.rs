//! What is read: a file or standard input.

use crate::failure::Failure;
use std::ffi::OsStr;
use std::fmt;
use std::fs::File;
use std::io::{self, Read};
use std::os::fd::AsFd;
use std::path::PathBuf;

/// Where bytes are read from.
#[derive(Clone, Debug, PartialEq, Eq)]
pub enum Source {
    StandardInput,
    File(PathBuf),
}

impl Source {
    /// What a name stands for: a dash is standard input.
    pub fn named(name: &OsStr) -> Source {
        if name == "-" {
            Source::StandardInput
        } else {
            Source::File(name.into())
        }
    }

    /// Reads up to its end, but no more bytes than those that can matter.
    pub fn read(&self, most: usize) -> Result<Vec<u8>, Failure> {
        let mut bytes = Vec::new();
        self.open()
            .and_then(|file| file.take(most as u64).read_to_end(&mut bytes))
            .map_err(Failure::of(self))?;
        Ok(bytes)
    }

    /// Standard input is read as a file: the standard library's own takes one that can't be read
    /// for an empty one.
    fn open(&self) -> io::Result<File> {
        match self {
            Source::StandardInput => Ok(File::from(io::stdin().as_fd().try_clone_to_owned()?)),
            Source::File(path) => File::open(path),
        }
    }
}

impl fmt::Display for Source {
    fn fmt(&self, f: &mut fmt::Formatter<'_>) -> fmt::Result {
        match self {
            Source::StandardInput => f.write_str("standard input"),
            Source::File(path) => path.display().fmt(f),
        }
    }
}
