//! Drives the proved library and the plain implementation side by side.
//!
//! A [`Pair`] holds every book for each side. Each call is made on all, and the answers and every
//! byte of the memory that was lent have to be the same afterwards; so have the bytes around it,
//! which were not lent. The library is called twice: as it is, and by the safe types of the crate
//! `selquorin`, on books that are borrowed.

mod borrowed;
mod kinds;
mod random;
mod runs;

pub use kinds::{grow, near_full, Kind};
pub use random::Random;
pub use runs::{run, Seen};

use selquorin::raw;
use std::fmt;

/// Bytes that stand behind each lent part and must never change.
const FENCE: usize = 256;
const FENCE_BYTE: u8 = 0xa5;

/// The bytes of a journal book and of a row book.
pub const SIZES: [usize; 2] = [4096, 64_000];

/// A call, with everything that it is given but the books.
#[derive(Clone, PartialEq, Eq)]
pub enum Call {
    /// Clear.
    Clear,
    /// Open.
    Open,
    /// Append a step.
    Append(u8),
    /// Rebuild.
    Rebuild,
    /// Count a word by the table.
    TableCount(Vec<u8>),
    /// Count the word of a word record by the journals.
    JournalCount(Vec<u8>),
    /// The number of open journals.
    OpenJournals,
    /// The number of live rows.
    LiveRows,
    /// Check.
    Check,
    /// List.
    List {
        /// The quorum.
        quorum: usize,
        /// The length.
        length: usize,
        /// 0 from the start, else after the word.
        after: u8,
        /// The word record.
        record: Vec<u8>,
        /// The size of the output.
        out: usize,
        /// What the output holds before.
        filled: u8,
    },
    /// A row record and its number.
    Row(usize),
}

impl fmt::Debug for Call {
    fn fmt(&self, f: &mut fmt::Formatter<'_>) -> fmt::Result {
        match self {
            Call::Clear => write!(f, "clear"),
            Call::Open => write!(f, "open"),
            Call::Append(step) => write!(f, "append {step}"),
            Call::Rebuild => write!(f, "rebuild"),
            Call::TableCount(word) => write!(f, "table count of {word:?}"),
            Call::JournalCount(record) => write!(f, "journal count of record {record:?}"),
            Call::OpenJournals => write!(f, "open journals"),
            Call::LiveRows => write!(f, "live rows"),
            Call::Check => write!(f, "check"),
            Call::List {
                quorum,
                length,
                after,
                record,
                out,
                filled,
            } => write!(
                f,
                "list, quorum {quorum}, length {length}, after {after}, record {record:?}, \
                 output of {out} bytes {filled}"
            ),
            Call::Row(row) => write!(f, "row record {row}"),
        }
    }
}

/// What a call answers, whichever it is.
#[derive(Clone, Copy, Debug, PartialEq, Eq)]
pub struct Answer {
    /// 0: done. Else why it was refused.
    pub number: u8,
    /// Count; or how many journals or rows; or book; or 1 where a further word remains.
    pub first: usize,
    /// Record; or how many words were written; or the length of the row record.
    pub second: usize,
    /// Byte.
    pub third: usize,
}

impl Answer {
    fn new(number: u8, first: usize, second: usize, third: usize) -> Answer {
        Answer {
            number,
            first,
            second,
            third,
        }
    }
}

/// Where the two implementations differ.
#[derive(Clone, Debug)]
pub struct Difference(String);

impl fmt::Display for Difference {
    fn fmt(&self, f: &mut fmt::Formatter<'_>) -> fmt::Result {
        f.write_str(&self.0)
    }
}

/// The memory of one side: both books, each with a fence behind it.
#[derive(Clone)]
struct Side {
    books: [Vec<u8>; 2],
}

impl Side {
    fn new() -> Side {
        Side {
            books: SIZES.map(|size| {
                let mut book = vec![0; size];
                book.resize(size + FENCE, FENCE_BYTE);
                book
            }),
        }
    }

    fn read(&self, sizes: [usize; 2]) -> (&[u8], &[u8]) {
        (&self.books[0][..sizes[0]], &self.books[1][..sizes[1]])
    }

    fn write(&mut self, sizes: [usize; 2]) -> (&mut [u8], &mut [u8]) {
        let [journals, rows] = &mut self.books;
        (&mut journals[..sizes[0]], &mut rows[..sizes[1]])
    }
}

/// Makes a call on one side by the functions of its module, which have the same names on both sides; `$after` says how
/// the list is told to go on after a word.
macro_rules! made_by {
    ($module:ident, $side:expr, $sizes:expr, $call:expr, $out:expr, $after:expr) => {{
        let sizes = $sizes;
        let changed = |number| Answer::new(number, 0, 0, 0);
        match $call {
            Call::Clear => {
                let (journals, rows) = $side.write(sizes);
                changed($module::clear(journals, rows))
            }
            Call::Open => {
                let (journals, rows) = $side.write(sizes);
                changed($module::open(journals, rows))
            }
            Call::Append(step) => {
                let (journals, rows) = $side.write(sizes);
                changed($module::append(journals, rows, *step))
            }
            Call::Rebuild => {
                let (journals, rows) = $side.write(sizes);
                changed($module::rebuild(journals, rows))
            }
            Call::TableCount(word) => {
                let answer = $module::table_count($side.read(sizes).1, word);
                Answer::new(answer.number, answer.count.into(), 0, 0)
            }
            Call::JournalCount(record) => {
                let answer = $module::journal_count($side.read(sizes).0, record);
                Answer::new(answer.number, answer.count.into(), 0, 0)
            }
            Call::OpenJournals => {
                let answer = $module::open_journals($side.read(sizes).0);
                Answer::new(answer.number, answer.journals, 0, 0)
            }
            Call::LiveRows => {
                let (journals, rows) = $side.read(sizes);
                let answer = $module::live_rows(journals, rows);
                Answer::new(answer.number, answer.rows, 0, 0)
            }
            Call::Check => {
                let (journals, rows) = $side.read(sizes);
                let seen = $module::check(journals, rows);
                Answer::new(seen.number, seen.book.into(), seen.record, seen.byte)
            }
            Call::List {
                quorum,
                length,
                after,
                record,
                ..
            } => {
                let (journals, rows) = $side.read(sizes);
                let after = $after(*after);
                let answer = $module::list(journals, rows, *quorum, *length, after, record, $out);
                Answer::new(answer.number, answer.more.into(), answer.written, 0)
            }
            // The record itself can't cross the C interface, only its number can.
            Call::Row(row) => changed($module::row_record_number($side.read(sizes).1, *row)),
        }
    }};
}

/// What was lent of a side, with the fence behind each part: both books, and an output.
fn parts<'a>(side: &'a Side, out: &'a [u8]) -> [(&'static str, &'a [u8]); 3] {
    let [journals, rows] = &side.books;
    [
        ("journal book", journals),
        ("row book", rows),
        ("output", out),
    ]
}

/// The same books on every side.
#[derive(Clone)]
pub struct Pair {
    library: Side,
    borrowed: Side,
    plain: Side,
    /// How many bytes of each book are lent: 4,096 and 64,000, or others for a wrong size.
    pub sizes: [usize; 2],
    /// How many calls were made.
    pub calls: u64,
    /// How many of them were made on borrowed books too.
    pub by_borrowed: u64,
    /// What the list last wrote.
    pub out: Vec<u8>,
}

impl Pair {
    /// Cleared books.
    pub fn new() -> Pair {
        Pair {
            library: Side::new(),
            borrowed: Side::new(),
            plain: Side::new(),
            sizes: SIZES,
            calls: 0,
            by_borrowed: 0,
            out: Vec::new(),
        }
    }

    fn sides(&mut self) -> [&mut Side; 3] {
        [&mut self.library, &mut self.borrowed, &mut self.plain]
    }

    /// Books of these journals with these rows, whatever they are.
    pub fn set(&mut self, journals: &[u8], rows: &[u8]) {
        for side in self.sides() {
            let (j, r) = side.write(SIZES);
            j.copy_from_slice(journals);
            r.copy_from_slice(rows);
        }
    }

    /// A book's bytes: 0 the journal book, 1 the row book.
    pub fn book(&self, book: usize) -> &[u8] {
        &self.plain.books[book][..SIZES[book]]
    }

    /// Writes a byte into a book on every side.
    pub fn poke(&mut self, book: usize, at: usize, byte: u8) {
        assert!(at < SIZES[book]);
        for side in self.sides() {
            side.books[book][at] = byte;
        }
    }

    /// Makes a call on every side, and compares the answers and all that was lent.
    pub fn call(&mut self, call: &Call) -> Result<Answer, Difference> {
        self.calls += 1;
        let (lent, filled) = match call {
            Call::List { out, filled, .. } => (*out, *filled),
            _ => (0, 0),
        };
        let mut outs = [(); 3].map(|()| {
            let mut out = vec![filled; lent];
            out.resize(lent + FENCE, FENCE_BYTE);
            out
        });
        // The library is lent a word or a word record of its own, which it must leave as it is.
        let given = call.clone();
        let by_library = self.by_library(&given, &mut outs[0][..lent]);
        let by_borrowed = self.by_borrowed(call, &mut outs[1][..lent]);
        let by_plain = self.by_plain(call, &mut outs[2][..lent]);

        let mut said = self.differing(&outs);
        if by_library != by_plain || by_borrowed.is_some_and(|answer| answer != by_plain) {
            said.push(format!(
                "library {by_library:?}, borrowed {by_borrowed:?}, plain {by_plain:?}"
            ));
        }
        if given != *call {
            said.push(format!(
                "the library has written into what it reads: {given:?}"
            ));
        }
        self.by_borrowed += u64::from(by_borrowed.is_some());
        if !said.is_empty() {
            return Err(self.difference(call, &said.join("; ")));
        }
        self.out = outs[2][..lent].to_vec();
        Ok(by_plain)
    }

    fn by_library(&mut self, call: &Call, out: &mut [u8]) -> Answer {
        made_by!(raw, self.library, self.sizes, call, out, |after: u8| after)
    }

    /// None where the safe types rule the call out. It writes nothing then on the other sides.
    fn by_borrowed(&mut self, call: &Call, out: &mut [u8]) -> Option<Answer> {
        let (journals, rows) = self.borrowed.write(self.sizes);
        borrowed::made(journals, rows, call, out)
    }

    fn by_plain(&mut self, call: &Call, out: &mut [u8]) -> Answer {
        made_by!(plain, self.plain, self.sizes, call, out, |after: u8| after
            != 0)
    }

    /// Where a side's bytes aren't those of plain, and where the bytes behind them have changed.
    fn differing(&self, outs: &[Vec<u8>; 3]) -> Vec<String> {
        let mut said = Vec::new();
        let [library_out, borrowed_out, plain_out] = outs;
        let wanted = parts(&self.plain, plain_out);
        for (side, seen) in [
            ("library", parts(&self.library, library_out)),
            ("borrowed", parts(&self.borrowed, borrowed_out)),
        ] {
            for ((name, a), (_, b)) in seen.into_iter().zip(wanted) {
                if let Some(at) = (0..b.len()).find(|&at| a[at] != b[at]) {
                    let (a, b) = (a[at], b[at]);
                    said.push(format!(
                        "{name}: first differing byte {at}, {side} {a}, plain {b}"
                    ));
                }
            }
        }
        for (name, bytes) in wanted {
            let fence = &bytes[bytes.len() - FENCE..];
            if fence.iter().any(|&byte| byte != FENCE_BYTE) {
                said.push(format!("{name}: bytes behind it have changed"));
            }
        }
        said
    }

    fn difference(&self, call: &Call, said: &str) -> Difference {
        let (calls, sizes) = (self.calls, self.sizes);
        Difference(format!(
            "call {calls} ({call:?}) with books of {sizes:?} bytes: {said}"
        ))
    }
}

impl Default for Pair {
    fn default() -> Pair {
        Pair::new()
    }
}
