//! Steps and words.

use crate::Error;
use std::fmt;

/// The most steps that a [`Word`] has.
pub const LONGEST_WORD: usize = 15;

/// The bytes of a word record.
pub const WORD_RECORD: usize = 16;

/// A step: a code 0 to 15.
#[derive(Clone, Copy, Debug, Default, PartialEq, Eq, PartialOrd, Ord, Hash)]
#[repr(transparent)]
pub struct Step(u8);

impl Step {
    /// The step of a code; [`Error::WrongStep`] above 15.
    pub fn new(code: u8) -> Result<Step, Error> {
        if code <= 15 {
            Ok(Step(code))
        } else {
            Err(Error::WrongStep)
        }
    }

    /// Its code, 0 to 15.
    pub fn code(self) -> u8 {
        self.0
    }
}

impl TryFrom<u8> for Step {
    type Error = Error;

    fn try_from(code: u8) -> Result<Step, Error> {
        Step::new(code)
    }
}

impl From<Step> for u8 {
    fn from(step: Step) -> u8 {
        step.code()
    }
}

impl fmt::Display for Step {
    fn fmt(&self, f: &mut fmt::Formatter<'_>) -> fmt::Result {
        self.0.fmt(f)
    }
}

/// A word that fits a word record: 0 to 15 steps.
///
/// Words compare in dictionary order, as in the list: a word comes before the longer ones that begin
/// with it, and where two words part, the lower step goes first.
#[derive(Clone, Copy)]
pub struct Word {
    steps: [Step; LONGEST_WORD],
    length: usize,
}

impl Word {
    /// The word with no step, which is in every journal.
    pub const EMPTY: Word = Word {
        steps: [Step(0); LONGEST_WORD],
        length: 0,
    };

    /// The word of some codes; [`Error::WrongStep`] if one is above 15, [`Error::WrongWord`] if
    /// there are more than 15 of them.
    pub fn new(codes: &[u8]) -> Result<Word, Error> {
        let mut word = Word::EMPTY;
        for &code in codes {
            word = word.with(Step::new(code)?)?;
        }
        Ok(word)
    }

    /// The word with one step more at its end; [`Error::WrongWord`] if it has 15 already.
    pub fn with(mut self, step: Step) -> Result<Word, Error> {
        let place = self.steps.get_mut(self.length).ok_or(Error::WrongWord)?;
        *place = step;
        self.length += 1;
        Ok(self)
    }

    /// The word of a word record: a byte for the length, then the steps, zero beyond the length.
    /// [`Error::WrongSize`] if that isn't 16 bytes, [`Error::WrongWord`] if its form is wrong.
    pub fn from_record(record: &[u8]) -> Result<Word, Error> {
        let record: &[u8; WORD_RECORD] = record.try_into().map_err(|_| Error::WrongSize)?;
        let length = usize::from(record[0]);
        let codes = record.get(1..1 + length).ok_or(Error::WrongWord)?;
        let word = Word::new(codes).map_err(|_| Error::WrongWord)?;
        if word.record() == *record {
            Ok(word)
        } else {
            Err(Error::WrongWord)
        }
    }

    /// Its word record.
    pub fn record(&self) -> [u8; WORD_RECORD] {
        let mut record = [0; WORD_RECORD];
        record[0] = self.length as u8;
        for (byte, step) in record[1..].iter_mut().zip(self.steps()) {
            *byte = step.code();
        }
        record
    }

    /// Its steps.
    pub fn steps(&self) -> &[Step] {
        &self.steps[..self.length]
    }

    /// How many steps it has.
    pub fn len(&self) -> usize {
        self.length
    }

    /// Whether it is the word with no step.
    pub fn is_empty(&self) -> bool {
        self.length == 0
    }
}

impl Default for Word {
    fn default() -> Word {
        Word::EMPTY
    }
}

impl PartialEq for Word {
    fn eq(&self, other: &Word) -> bool {
        self.steps() == other.steps()
    }
}

impl Eq for Word {}

impl PartialOrd for Word {
    fn partial_cmp(&self, other: &Word) -> Option<std::cmp::Ordering> {
        Some(self.cmp(other))
    }
}

impl Ord for Word {
    fn cmp(&self, other: &Word) -> std::cmp::Ordering {
        self.steps().cmp(other.steps())
    }
}

impl std::hash::Hash for Word {
    fn hash<H: std::hash::Hasher>(&self, state: &mut H) {
        self.steps().hash(state);
    }
}

impl TryFrom<&[u8]> for Word {
    type Error = Error;

    fn try_from(codes: &[u8]) -> Result<Word, Error> {
        Word::new(codes)
    }
}

/// The codes with a blank between them; nothing for the empty word.
impl fmt::Display for Word {
    fn fmt(&self, f: &mut fmt::Formatter<'_>) -> fmt::Result {
        for (i, step) in self.steps().iter().enumerate() {
            if i > 0 {
                f.write_str(" ")?;
            }
            step.fmt(f)?;
        }
        Ok(())
    }
}

impl fmt::Debug for Word {
    fn fmt(&self, f: &mut fmt::Formatter<'_>) -> fmt::Result {
        write!(f, "Word({self})")
    }
}

#[cfg(test)]
mod tests {
    use super::*;

    #[test]
    fn a_step_is_0_to_15() {
        for code in 0..=255 {
            match Step::new(code) {
                Ok(step) => assert!(code <= 15 && step.code() == code),
                Err(error) => assert!(code > 15 && error == Error::WrongStep),
            }
        }
    }

    #[test]
    fn a_word_has_up_to_15_steps() {
        let codes: Vec<u8> = (0..16).collect();
        for n in 0..=15 {
            let word = Word::new(&codes[..n]).unwrap();
            assert_eq!((word.len(), word.is_empty()), (n, n == 0));
            assert_eq!(Word::from_record(&word.record()), Ok(word));
        }
        assert_eq!(Word::new(&codes), Err(Error::WrongWord));
        assert_eq!(Word::new(&[3, 16]), Err(Error::WrongStep));
    }

    #[test]
    fn a_record_of_wrong_form_is_no_word() {
        let right = Word::new(&[1, 0, 2]).unwrap().record();
        assert_eq!(Word::from_record(&right[..15]), Err(Error::WrongSize));
        assert_eq!(Word::from_record(&[0; 17]), Err(Error::WrongSize));
        for (at, byte) in [(0, 16), (0, 255), (0, 2), (1, 16), (4, 1), (15, 7)] {
            let mut wrong = right;
            wrong[at] = byte;
            assert_eq!(Word::from_record(&wrong), Err(Error::WrongWord));
        }
    }

    #[test]
    fn words_compare_as_in_a_dictionary() {
        let order = [&[][..], &[0], &[0, 0], &[0, 1], &[1], &[1, 0], &[15]];
        for pair in order.windows(2) {
            assert!(Word::new(pair[0]).unwrap() < Word::new(pair[1]).unwrap());
        }
    }
}
