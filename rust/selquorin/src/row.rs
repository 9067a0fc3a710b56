//! A row of the table.

use crate::Step;
use std::collections::BTreeMap;
use std::{array, fmt};

/// The bytes of a row record.
pub const ROW_RECORD: usize = 64;

/// A row record: one part of the caller's row book, read as it stands.
#[derive(Clone, Copy, PartialEq, Eq)]
pub struct Row<'a> {
    bytes: &'a [u8; ROW_RECORD],
}

impl<'a> Row<'a> {
    pub(crate) fn new(bytes: &'a [u8; ROW_RECORD]) -> Row<'a> {
        Row { bytes }
    }

    /// The 64 bytes themselves.
    pub fn bytes(self) -> &'a [u8; ROW_RECORD] {
        self.bytes
    }

    /// The places, one for each of the journals 0 to 15, as [`place`](Row::place) has them.
    ///
    /// ```
    /// # use selquorin::{Books, Error, Step};
    /// # fn main() -> Result<(), Error> {
    /// let mut books = Books::new();
    /// books.open()?;
    /// books.append(Step::new(7)?)?;
    /// books.open()?;
    /// // Step 7 leads from row 0 to row 1: the first journal is at place 1, the second has no 7.
    /// assert_eq!(books.row(0)?.arcs()[7], Some(1));
    /// assert_eq!(books.row(1)?.places()[..2], [Some(1), None]);
    /// assert_eq!(books.row(1)?.count(), 1);
    /// # Ok(())
    /// # }
    /// ```
    pub fn places(self) -> [Option<u8>; 16] {
        array::from_fn(|journal| self.place(journal))
    }

    /// The arcs, one for each of the steps 0 to 15, as [`arc`](Row::arc) has them.
    pub fn arcs(self) -> [Option<usize>; 16] {
        array::from_fn(|code| self.arc_at(code))
    }

    /// The place in a journal, 0 to 15; none where it is lost. A journal that isn't open has 0.
    ///
    /// # Panics
    ///
    /// If `journal` is above 15.
    pub fn place(self, journal: usize) -> Option<u8> {
        assert!(journal < 16, "there are journals 0 to 15");
        Some(self.bytes[journal]).filter(|&place| place != 255)
    }

    /// The row that a step leads to; none where the arc is 0.
    pub fn arc(self, step: Step) -> Option<usize> {
        self.arc_at(step.code().into())
    }

    fn arc_at(self, code: usize) -> Option<usize> {
        let at = 16 + 2 * code;
        let arc = u16::from_le_bytes([self.bytes[at], self.bytes[at + 1]]);
        Some(usize::from(arc)).filter(|&arc| arc != 0)
    }

    /// The count: in how many journals the row's words are.
    pub fn count(self) -> u8 {
        self.bytes[48]
    }
}

/// The sixteen place bytes, the arcs that lead somewhere, by step, and the count.
impl fmt::Debug for Row<'_> {
    fn fmt(&self, f: &mut fmt::Formatter<'_>) -> fmt::Result {
        let led = |(code, arc): (usize, Option<usize>)| Some((code, arc?));
        let arcs: BTreeMap<_, _> = self
            .arcs()
            .into_iter()
            .enumerate()
            .filter_map(led)
            .collect();
        f.debug_struct("Row")
            .field("places", &&self.bytes[..16])
            .field("arcs", &arcs)
            .field("count", &self.count())
            .finish()
    }
}

#[cfg(test)]
mod tests {
    use super::*;

    /// Places 0 to 14 and a lost one, an arc by step 3 to row 258 and one by step 15 to row 999.
    fn bytes() -> [u8; ROW_RECORD] {
        let mut bytes = [0; ROW_RECORD];
        for (journal, place) in bytes[..16].iter_mut().enumerate() {
            *place = journal as u8;
        }
        bytes[15] = 255;
        bytes[16 + 6..16 + 8].copy_from_slice(&[2, 1]);
        bytes[16 + 30..16 + 32].copy_from_slice(&[0xe7, 3]);
        bytes[48] = 15;
        bytes
    }

    #[test]
    fn a_row_has_places_arcs_and_a_count() {
        let bytes = bytes();
        let row = Row::new(&bytes);
        for journal in 0..16 {
            let wanted = (journal < 15).then_some(journal as u8);
            assert_eq!(row.place(journal), wanted);
            assert_eq!(row.places()[journal], wanted);
        }
        for code in 0..16 {
            let wanted = match code {
                3 => Some(258),
                15 => Some(999),
                _ => None,
            };
            assert_eq!(row.arc(Step::new(code).unwrap()), wanted);
            assert_eq!(row.arcs()[usize::from(code)], wanted);
        }
        assert_eq!(row.count(), 15);
    }

    #[test]
    fn a_row_is_shown_in_a_line() {
        let wanted = "Row { places: [0, 1, 2, 3, 4, 5, 6, 7, 8, 9, 10, 11, 12, 13, 14, 255], \
                      arcs: {3: 258, 15: 999}, count: 15 }";
        assert_eq!(format!("{:?}", Row::new(&bytes())), wanted);
    }
}
