//! Each refusal: its number in words, its status, and nothing done.

use crate::folder::{entries, kept, Folder, ONE, TWO};
use crate::ran::{run_in, Ran};
use plain::{journal_book, picture, Journal, JOURNAL_BOOK, ROW_BOOK};

/// Entries that are refused at their last one: the number, how many are taken before it, and the
/// entries.
fn refused_entries() -> Vec<(u8, usize, Vec<u8>)> {
    let sixteen: Vec<&[u8]> = vec![&[7]; 16];
    let with = |journals: &[&[u8]], last: &[u8]| [&entries(journals), last].concat();
    let many = entries(&too_many().each_ref().map(|journal| &journal[..]));
    let fits = |&record: &usize| picture(&journals_of(&many[..2 * record + 2])).is_some();
    let record = (0..).take_while(fits).count();
    vec![
        (5, 200, with(&[&[9; 200]], &[0, 9])),
        (6, record, many[..2 * record + 2].to_vec()),
        (7, 16, with(&sixteen, &[16, 0])),
        (11, 6, with(&TWO, &[3, 0])),
        (11, 6, with(&TWO, &[1, 16])),
        (11, 6, with(&TWO, &[1, 255])),
        (11, 6, with(&TWO, &[1])),
    ]
}

/// The journals of entries that have a step each.
fn journals_of(entries: &[u8]) -> Vec<Journal> {
    let mut journals = Vec::new();
    for entry in entries.chunks_exact(2) {
        journals.resize(usize::from(entry[0]) + 1, Journal::new());
        journals[usize::from(entry[0])].push(entry[1]);
    }
    journals
}

/// Three journals that have more than 1,000 live states.
fn too_many() -> [Journal; 3] {
    let step = |n: usize, by| ((n * n / 3 + n * by) % 5) as u8;
    let journals = [1, 3, 5].map(|by| (0..60).map(|n| step(n, by)).collect());
    assert!(picture(&journals).is_none());
    journals
}

#[test]
fn an_entry() {
    let folder = Folder::new("an_entry");
    folder.put("old", &kept(&ONE));
    for (number, record, bytes) in refused_entries() {
        let line = format!("refused {number} record {record}\n");
        run_in(&folder, &["list"], &bytes).is_refused(number, &line);
        for words in [
            &["count", "1"][..],
            &["load", "--books", "new"],
            &["load", "--books", "old"],
        ] {
            let ran = run_in(&folder, words, &bytes);
            ran.is_refused(number, "");
            assert!(ran
                .said
                .contains(&format!("standard input: record {record} refused")));
        }
    }
    folder.has("old", &kept(&ONE));
    assert_eq!(folder.names(), ["old"]);
}

#[test]
fn an_ask() {
    let folder = Folder::new("an_ask");
    folder.put("one", &[2]);
    folder.put("three", &[2, 3, 0]);
    folder.put("16", &[0, 16]);
    let asks: [(u8, &[&str]); 10] = [
        (8, &["--quorum", "0"]),
        (8, &["--quorum", "3"]),
        (8, &["--quorum", "99999999999999999999999"]),
        (9, &["--length", "16"]),
        (9, &["--length=99999999999999999999999"]),
        (9, &["--length", "16", "--quorum", "3"]),
        (9, &["--ask", "16"]),
        (12, &["--ask", "one"]),
        (12, &["--ask", "three"]),
        (12, &["--ask", "three", "--quorum", "3"]),
    ];
    for (number, ask) in asks {
        let words = [&["list"], ask].concat();
        let line = format!("refused {number} ask\n");
        run_in(&folder, &words, &entries(&TWO)).is_refused(number, &line);
    }
    run_in(&folder, &["list"], b"").is_refused(8, "refused 8 ask\n");
}

#[test]
fn a_step_above_15() {
    let folder = Folder::new("a_step_above_15");
    folder.put("b", &kept(&TWO));
    for step in ["16", "255", "256", "271", "99999999999999999999999"] {
        run_in(&folder, &["count", "1", step], &entries(&TWO)).is_refused(3, "");
        run_in(&folder, &["count", step, "--books", "b"], b"").is_refused(3, "");
    }
}

/// Books of a wrong size: 1 goes before every other number.
#[test]
fn a_wrong_size() {
    let folder = Folder::new("a_wrong_size");
    let mut long = kept(&TWO);
    long.push(0);
    let commands: [(&[&str], &str); 4] = [
        (&["list", "--length", "16"], "refused 1 books\n"),
        (&["count", "16"], ""),
        (&["check"], ""),
        (&["rebuild"], ""),
    ];
    for (size, has) in [(0, "has 0"), (68_095, "has 68095"), (68_097, "has more")] {
        folder.put("b", &long[..size]);
        for (words, printed) in commands {
            let ran = books(&folder, words);
            ran.is_refused(1, printed);
            assert!(ran.said.contains("has 68096 bytes"), "{ran:?}");
            assert!(ran.said.contains(has), "{ran:?}");
        }
        folder.has("b", &long[..size]);
    }
    assert_eq!(folder.names(), ["b"]);
}

/// Runs a command on the file of books.
fn books(folder: &Folder, words: &[&str]) -> Ran {
    run_in(folder, &[words, &["--books", "b"]].concat(), b"")
}

/// The example's books with one byte changed.
fn changed(at: usize) -> Vec<u8> {
    let mut bytes = kept(&TWO);
    bytes[at] ^= 64;
    bytes
}

/// A file of books whose journals have too many live states.
fn too_many_kept() -> Vec<u8> {
    [journal_book(&too_many()), vec![0; ROW_BOOK]].concat()
}

/// Damaged books, and where their first fault is.
#[test]
fn damaged_books() {
    let folder = Folder::new("damaged_books");
    let row = |row: usize, byte: usize| changed(JOURNAL_BOOK + 64 * row + byte);
    let files = [
        ("book 1 record 1 byte 0\n", changed(256 + 202)),
        ("book 2 record 0 byte 48\n", row(0, 48)),
        ("book 2 record 5 byte 17\n", row(5, 17)),
        ("book 2 record 999 byte 63\n", row(999, 63)),
        ("book 2 record 1000 byte 0\n", too_many_kept()),
    ];
    for (fault, bytes) in files {
        folder.put("b", &bytes);
        books(&folder, &["check"]).is_refused(2, fault);
        books(&folder, &["count", "1"]).is_refused(2, "");
        books(&folder, &["count", "16"]).is_refused(3, "");
        books(&folder, &["list", "--length", "16"]).is_refused(2, "refused 2 books\n");
        folder.has("b", &bytes);
    }
}

/// Journals that no rows can be drawn from.
#[test]
fn a_rebuild() {
    let folder = Folder::new("a_rebuild");
    for (number, bytes) in [
        (2, changed(0)),
        (2, changed(256 + 202)),
        (6, too_many_kept()),
    ] {
        folder.put("b", &bytes);
        books(&folder, &["rebuild"]).is_refused(number, "");
        folder.has("b", &bytes);
        assert_eq!(folder.names(), ["b"]);
    }
}
