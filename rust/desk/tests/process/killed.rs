//! A write that is broken off: the old books stand there or the new ones, and never a mix.

use crate::folder::{entries, kept, Folder, ONE, TWO};
use crate::ran::{command, command_behind, run, run_in};
use plain::JOURNAL_BOOK;
use std::fs;
use std::process::Stdio;
use std::thread::sleep;
use std::time::{Duration, Instant};

/// No file may grow beyond half of the books; the shell counts in 512 bytes.
const HALF: &str = "ulimit -f 66";
/// The signal of a process that makes a file too large.
const TOO_LARGE: i32 = 25;

/// The commands that write, on books whose rows are gone.
const WRITING: [&str; 2] = ["load", "rebuild"];

fn without_rows() -> Vec<u8> {
    let mut bytes = kept(&TWO);
    bytes[JOURNAL_BOOK..].fill(0);
    bytes
}

/// The process dies within its write: part of the new books is written, and the old ones stand
/// there.
#[test]
fn killed_in_the_middle_of_the_write() {
    for word in WRITING {
        let folder = Folder::new("killed_in_the_middle_of_the_write");
        folder.put("b", &without_rows());
        let words = [word, "--books", "b"];
        let ran = run(command_behind(HALF, folder.path(), &words), &entries(&TWO));
        assert_eq!((ran.status, ran.signal), (None, Some(TOO_LARGE)));
        folder.has("b", &without_rows());
        let names = folder.names();
        assert_eq!(names.len(), 2, "what it wrote is left: {names:?}");
        folder.has(&names[0], &kept(&TWO)[..66 * 512]);
    }
}

/// The same write fails where the process lives on: it takes away what it wrote.
#[test]
fn a_write_that_fails() {
    let folder = Folder::new("a_write_that_fails");
    folder.put("b", &without_rows());
    let ready = format!("trap '' XFSZ; {HALF}");
    for (word, books) in [("load", "b"), ("rebuild", "b"), ("load", "new")] {
        let command = command_behind(&ready, folder.path(), &[word, "--books", books]);
        run(command, &entries(&TWO)).has_failed(books);
        assert_eq!(folder.names(), ["b"]);
    }
    folder.has("b", &without_rows());
}

/// Killed at many moments of its run, each a little later than the one before.
#[test]
fn killed_at_any_moment() {
    let folder = Folder::new("killed_at_any_moment");
    let (one, two) = (kept(&ONE), kept(&TWO));
    folder.put("one", &entries(&ONE));
    folder.put("two", &entries(&TWO));
    let begun = Instant::now();
    let first = ["load", "one", "--books", "b"];
    run_in(&folder, &first, b"").is_done("");
    let whole = begun.elapsed();
    let (mut ones, mut twos) = (0, 0);
    for turn in 0..200 {
        let from = if turn % 2 == 0 { "two" } else { "one" };
        let mut command = command(folder.path(), &["load", from, "--books", "b"]);
        let mut child = command.stdin(Stdio::null()).spawn().expect("it starts");
        sleep(whole.min(Duration::from_millis(50)) * turn / 100);
        child.kill().expect("it is ours");
        child.wait().expect("it ends");
        let seen = fs::read(folder.join("b")).expect("it is read");
        assert!(seen == one || seen == two, "turn {turn} leaves neither");
        ones += u32::from(seen == one);
        twos += u32::from(seen == two);
    }
    println!("after {ones} turns one journal's books stood there, after {twos} those of two");
}
