//! The words behind a command, taken apart: options with a value each, and the other words.

use crate::failure::Failure;
use std::collections::BTreeMap;
use std::ffi::{OsStr, OsString};
use std::os::unix::ffi::OsStrExt;

/// The words behind a command.
pub struct Given {
    command: &'static str,
    values: BTreeMap<&'static str, OsString>,
    pub others: Vec<OsString>,
}

impl Given {
    /// Takes the words apart. Those behind `--` are no options.
    pub fn new(
        command: &'static str,
        options: &[&'static str],
        words: Vec<OsString>,
    ) -> Result<Given, Failure> {
        let mut given = Given {
            command,
            values: BTreeMap::new(),
            others: Vec::new(),
        };
        let mut words = words.into_iter();
        while let Some(word) = words.next() {
            if word == "--" {
                given.others.extend(words.by_ref());
            } else if is_option(&word) {
                given.take(options, &word, &mut words)?;
            } else {
                given.others.push(word);
            }
        }
        Ok(given)
    }

    /// Takes an option, with the value behind its equals sign or else the next word.
    fn take(
        &mut self,
        options: &[&'static str],
        word: &OsStr,
        words: &mut impl Iterator<Item = OsString>,
    ) -> Result<(), Failure> {
        let mut halves = word.as_bytes().splitn(2, |&byte| byte == b'=');
        let name = halves.next().unwrap_or_default();
        let known = options.iter().find(|option| option.as_bytes() == name);
        let option = known.ok_or_else(|| self.unknown(word))?;
        let value = match halves.next() {
            Some(value) => OsStr::from_bytes(value).to_owned(),
            None => words
                .next()
                .filter(|value| !is_option(value))
                .ok_or_else(|| self.wrong(format!("{option} has no value")))?,
        };
        if value.is_empty() {
            return Err(self.wrong(format!("{option} has an empty value")));
        }
        match self.values.insert(option, value) {
            Some(_) => Err(self.wrong(format!("{option} is given twice"))),
            None => Ok(()),
        }
    }

    /// The value of an option, if it is given.
    pub fn value(&self, option: &str) -> Option<&OsStr> {
        self.values.get(option).map(OsString::as_os_str)
    }

    /// The value of an option that is a number.
    pub fn number(&self, option: &str) -> Result<Option<usize>, Failure> {
        let Some(value) = self.value(option) else {
            return Ok(None);
        };
        match number(value) {
            Some(number) => Ok(Some(number)),
            None => Err(self.wrong(format!("{option} {} is no number", value.to_string_lossy()))),
        }
    }

    pub fn unknown(&self, word: &OsStr) -> Failure {
        self.wrong(format!("it takes no {}", word.to_string_lossy()))
    }

    /// What says that the command is used wrongly.
    pub fn wrong(&self, why: String) -> Failure {
        Failure::WrongUse(format!("{}: {why}", self.command))
    }
}

/// A dash alone is the name of standard input.
fn is_option(word: &OsStr) -> bool {
    word.as_bytes().starts_with(b"-") && word != "-"
}

/// A number in digits. One that is too large for any use is the largest.
pub fn number(word: &OsStr) -> Option<usize> {
    let digits = word.to_str()?;
    if digits.is_empty() || !digits.bytes().all(|byte| byte.is_ascii_digit()) {
        return None;
    }
    Some(digits.parse().unwrap_or(usize::MAX))
}
