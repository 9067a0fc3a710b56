//! Every call gets by with the stack that the header for C asks for.

use plain::{journal_book, picture, Journal};
use selquorin::raw;
use std::thread;

/// A journal book and a row book, on the heap.
type Lent = (Vec<u8>, Vec<u8>);

/// Books with 999 live rows: a last step 4 makes it 1,000.
fn near_full() -> Lent {
    let mut journals: Vec<Journal> = (0..4).map(|code| vec![code; 200]).collect();
    journals.push(vec![4; 198]);
    let rows = picture(&journals).expect("there are 999 states");
    (journal_book(&journals), rows)
}

/// Makes a call on near-full books, in a thread with 256 KB of stack.
fn in_a_thread<T: Send + 'static>(call: fn(&mut Lent) -> T) -> T {
    let mut lent = near_full();
    let thread = thread::Builder::new().stack_size(256 * 1024);
    let running = thread.spawn(move || call(&mut lent)).expect("it starts");
    running.join().expect("it ends well")
}

/// The record of a word of 15 steps 0.
const RECORD: [u8; 16] = [15, 0, 0, 0, 0, 0, 0, 0, 0, 0, 0, 0, 0, 0, 0, 0];

#[test]
fn calls_that_write() {
    assert_eq!(in_a_thread(|(j, r)| raw::clear(j, r)), 0);
    assert_eq!(in_a_thread(|(j, r)| raw::open(j, r)), 0);
    assert_eq!(in_a_thread(|(j, r)| raw::append(j, r, 4)), 0);
    assert_eq!(in_a_thread(|(j, r)| raw::rebuild(j, r)), 0);
}

#[test]
fn calls_that_only_read() {
    let by_table = in_a_thread(|(_, r)| raw::table_count(r, &[4; 150]));
    assert_eq!((by_table.number, by_table.count), (0, 1));
    let by_journals = in_a_thread(|(j, _)| raw::journal_count(j, &RECORD));
    assert_eq!((by_journals.number, by_journals.count), (0, 1));
    assert_eq!(in_a_thread(|(j, _)| raw::open_journals(j)).journals, 5);
    assert_eq!(in_a_thread(|(j, r)| raw::live_rows(j, r)).rows, 999);
    assert_eq!(in_a_thread(|(j, r)| raw::check(j, r)).number, 0);
    assert_eq!(in_a_thread(|(_, r)| raw::row_record_number(r, 998)), 0);
    let listed = in_a_thread(|(j, r)| raw::list(j, r, 1, 15, 1, &RECORD, &mut vec![7; 65_536]));
    assert_eq!((listed.number, listed.written, listed.more), (0, 60, false));
}
