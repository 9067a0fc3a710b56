//! The library's calls as they are, over bytes of any length and content.
//!
//! Nothing is tested here: the library answers for every input, wrong sizes and damaged bytes too,
//! with 0 for "done" or the number of an [`Error`](crate::Error), and a refusal writes nothing.
//! These functions only turn slices into pointers with lengths, and packed answers into fields.

use crate::Step;
use std::slice;

/// What a count answers.
#[derive(Clone, Copy, Debug, PartialEq, Eq)]
pub struct Counted {
    /// 0: done. Else the number of an [`Error`](crate::Error).
    pub number: u8,
    /// The count; 0 with a refusal.
    pub count: u8,
}

/// What the number of open journals answers.
#[derive(Clone, Copy, Debug, PartialEq, Eq)]
pub struct OpenJournals {
    /// 0: done. Else the number of an [`Error`](crate::Error).
    pub number: u8,
    /// How many journals are open; 0 with a refusal.
    pub journals: usize,
}

/// What the number of live rows answers.
#[derive(Clone, Copy, Debug, PartialEq, Eq)]
pub struct LiveRows {
    /// 0: done. Else the number of an [`Error`](crate::Error).
    pub number: u8,
    /// How many rows are live; 0 with a refusal.
    pub rows: usize,
}

/// What the check answers.
#[derive(Clone, Copy, Debug, PartialEq, Eq)]
pub struct Checked {
    /// 0: done. Else the number of an [`Error`](crate::Error).
    pub number: u8,
    /// 1 or 2 where that book is wrong, else 0.
    pub book: u8,
    /// The record that is wrong; 1,000 where the journals have too many live states.
    pub record: usize,
    /// The byte in the row that is wrong.
    pub byte: usize,
}

/// What the list answers.
#[derive(Clone, Copy, Debug, PartialEq, Eq)]
pub struct Listed {
    /// 0: done. Else the number of an [`Error`](crate::Error).
    pub number: u8,
    /// How many words were written.
    pub written: usize,
    /// Whether a further word remains.
    pub more: bool,
}

mod library {
    extern "C" {
        pub fn selquorin_clear(
            journals: *mut u8,
            journals_length: usize,
            rows: *mut u8,
            rows_length: usize,
        ) -> u8;
        pub fn selquorin_open(
            journals: *mut u8,
            journals_length: usize,
            rows: *mut u8,
            rows_length: usize,
        ) -> u8;
        pub fn selquorin_append(
            journals: *mut u8,
            journals_length: usize,
            rows: *mut u8,
            rows_length: usize,
            step: u8,
        ) -> u8;
        pub fn selquorin_rebuild(
            journals: *const u8,
            journals_length: usize,
            rows: *mut u8,
            rows_length: usize,
        ) -> u8;
        pub fn selquorin_table_count(
            rows: *const u8,
            rows_length: usize,
            word: *const u8,
            word_length: usize,
        ) -> u32;
        pub fn selquorin_journal_count(
            journals: *const u8,
            journals_length: usize,
            record: *const u8,
            record_length: usize,
        ) -> u32;
        pub fn selquorin_journals(journals: *const u8, journals_length: usize) -> u32;
        pub fn selquorin_rows(
            journals: *const u8,
            journals_length: usize,
            rows: *const u8,
            rows_length: usize,
        ) -> u32;
        pub fn selquorin_check(
            journals: *const u8,
            journals_length: usize,
            rows: *const u8,
            rows_length: usize,
        ) -> u64;
        pub fn selquorin_list(
            journals: *const u8,
            journals_length: usize,
            rows: *const u8,
            rows_length: usize,
            quorum: usize,
            length: usize,
            after: u8,
            record: *const u8,
            record_length: usize,
            out: *mut u8,
            out_length: usize,
        ) -> u64;
        pub fn selquorin_row_record_number(rows: *const u8, rows_length: usize, row: usize) -> u8;
    }
}

/// Clears both books. Numbers: 1.
pub fn clear(journals: &mut [u8], rows: &mut [u8]) -> u8 {
    // SAFETY: both are lent whole and for writing, and they don't overlap.
    unsafe {
        library::selquorin_clear(
            journals.as_mut_ptr(),
            journals.len(),
            rows.as_mut_ptr(),
            rows.len(),
        )
    }
}

/// Opens an empty journal. Numbers: 1, 2, 7.
pub fn open(journals: &mut [u8], rows: &mut [u8]) -> u8 {
    // SAFETY: both are lent whole and for writing, and they don't overlap.
    unsafe {
        library::selquorin_open(
            journals.as_mut_ptr(),
            journals.len(),
            rows.as_mut_ptr(),
            rows.len(),
        )
    }
}

/// Appends a step to the journal opened last. Numbers: 1, 2, 3, 4, 5, 6.
pub fn append(journals: &mut [u8], rows: &mut [u8], step: u8) -> u8 {
    // SAFETY: both are lent whole and for writing, and they don't overlap.
    unsafe {
        library::selquorin_append(
            journals.as_mut_ptr(),
            journals.len(),
            rows.as_mut_ptr(),
            rows.len(),
            step,
        )
    }
}

/// Draws the row book anew from the journal book. Numbers: 1, 2, 6.
pub fn rebuild(journals: &[u8], rows: &mut [u8]) -> u8 {
    // SAFETY: both are lent whole, the row book for writing, and they don't overlap.
    unsafe {
        library::selquorin_rebuild(
            journals.as_ptr(),
            journals.len(),
            rows.as_mut_ptr(),
            rows.len(),
        )
    }
}

/// Counts a word of any length by the row book. Numbers: 1, 3, 2.
pub fn table_count(rows: &[u8], word: &[u8]) -> Counted {
    // SAFETY: both are lent whole, and only read.
    counted(unsafe {
        library::selquorin_table_count(rows.as_ptr(), rows.len(), word.as_ptr(), word.len())
    })
}

/// Counts the word of a word record by the journal book. Numbers: 1, 10, 2.
pub fn journal_count(journals: &[u8], record: &[u8]) -> Counted {
    // SAFETY: both are lent whole, and only read.
    counted(unsafe {
        library::selquorin_journal_count(
            journals.as_ptr(),
            journals.len(),
            record.as_ptr(),
            record.len(),
        )
    })
}

/// Packed: number + 256 · count.
fn counted(packed: u32) -> Counted {
    let [number, count, _, _] = packed.to_le_bytes();
    Counted { number, count }
}

/// The number of open journals, by the journal book. Numbers: 1, 2.
pub fn open_journals(journals: &[u8]) -> OpenJournals {
    // SAFETY: the book is lent whole, and only read.
    let packed = unsafe { library::selquorin_journals(journals.as_ptr(), journals.len()) };
    let (number, journals) = found(packed);
    OpenJournals { number, journals }
}

/// The number of live rows of sound books. Numbers: 1, 2.
pub fn live_rows(journals: &[u8], rows: &[u8]) -> LiveRows {
    // SAFETY: both are lent whole, and only read.
    let packed = unsafe {
        library::selquorin_rows(journals.as_ptr(), journals.len(), rows.as_ptr(), rows.len())
    };
    let (number, rows) = found(packed);
    LiveRows { number, rows }
}

/// Packed: number + 256 · how many.
fn found(packed: u32) -> (u8, usize) {
    let [number, ..] = packed.to_le_bytes();
    (number, (packed >> 8) as usize)
}

/// Checks both books. Numbers: 1, 2.
pub fn check(journals: &[u8], rows: &[u8]) -> Checked {
    // SAFETY: both are lent whole, and only read.
    let packed = unsafe {
        library::selquorin_check(journals.as_ptr(), journals.len(), rows.as_ptr(), rows.len())
    };
    // Packed: number + 2^8 · book + 2^16 · record + 2^32 · byte.
    let [number, book, r0, r1, b0, b1, b2, b3] = packed.to_le_bytes();
    Checked {
        number,
        book,
        record: usize::from(u16::from_le_bytes([r0, r1])),
        byte: u32::from_le_bytes([b0, b1, b2, b3]) as usize,
    }
}

/// Lists words into the output, 16 bytes each: from the start if `after` is 0, else after the word
/// of the record. Numbers: 1, 2, 9, 8, 10.
pub fn list(
    journals: &[u8],
    rows: &[u8],
    quorum: usize,
    length: usize,
    after: u8,
    record: &[u8],
    out: &mut [u8],
) -> Listed {
    // SAFETY: all are lent whole; the output is lent for writing, and overlaps none of the others.
    let packed = unsafe {
        library::selquorin_list(
            journals.as_ptr(),
            journals.len(),
            rows.as_ptr(),
            rows.len(),
            quorum,
            length,
            after,
            record.as_ptr(),
            record.len(),
            out.as_mut_ptr(),
            out.len(),
        )
    };
    // Packed: number + 2^8 · more + 2^16 · written.
    let [number, more, ..] = packed.to_le_bytes();
    Listed {
        number,
        written: (packed >> 16) as usize,
        more: more != 0,
    }
}

/// The number that goes with a row record. Numbers: 1, 13.
pub fn row_record_number(rows: &[u8], row: usize) -> u8 {
    // SAFETY: the book is lent whole, and only read.
    unsafe { library::selquorin_row_record_number(rows.as_ptr(), rows.len(), row) }
}

/// The codes of some steps, where they stand.
pub(crate) fn codes(steps: &[Step]) -> &[u8] {
    // SAFETY: a step is laid out as its code is, and both are only read as long as they are lent.
    unsafe { slice::from_raw_parts(steps.as_ptr().cast(), steps.len()) }
}

/// The steps of some codes, where they stand; none if a code is above 15.
pub(crate) fn steps(codes: &[u8]) -> Option<&[Step]> {
    if codes.iter().any(|&code| Step::new(code).is_err()) {
        return None;
    }
    // SAFETY: a step is laid out as its code is, each code is that of a step, and both are only
    // read as long as they are lent.
    Some(unsafe { slice::from_raw_parts(codes.as_ptr().cast(), codes.len()) })
}

#[cfg(test)]
mod tests {
    use super::*;

    #[test]
    fn steps_and_codes_are_the_same_bytes() {
        let all: Vec<u8> = (0..=16).collect();
        for n in 0..=16 {
            let row = steps(&all[..n]).unwrap();
            assert!(row.iter().map(|step| step.code()).eq(0..n as u8));
            assert_eq!(codes(row), &all[..n]);
        }
        assert_eq!(steps(&all), None);
        assert_eq!(steps(&[0, 255, 0]), None);
    }
}
