//! The ask: the quorum and the length, from a file, from options, or what stands for them.

use crate::failure::{Failure, Part};
use crate::source::Source;
use selquorin::Error;

/// The length where none is asked.
const DEFAULT_LENGTH: u8 = 8;

/// What the arguments say of the ask.
#[derive(Debug, Default)]
pub struct Ask {
    pub quorum: Option<usize>,
    pub length: Option<usize>,
    pub file: Option<Source>,
}

impl Ask {
    /// The quorum and the length where k journals are open. An option goes before the file.
    pub fn read(&self, k: usize) -> Result<(usize, usize), Failure> {
        // One byte more than it may have.
        let bytes = match &self.file {
            Some(file) => file.read(3)?,
            None => Vec::new(),
        };
        let (quorum, length) = match bytes[..] {
            [] => (k, DEFAULT_LENGTH),
            [quorum, length] => (usize::from(quorum), length),
            _ => return Err(Failure::refused(Part::Ask, Error::WrongAsk)),
        };
        let length = self.length.unwrap_or(usize::from(length));
        Ok((self.quorum.unwrap_or(quorum), length))
    }
}
