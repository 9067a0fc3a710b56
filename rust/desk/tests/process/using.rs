//! How the program is told what to do, and what it says to anything else.

use crate::folder::{entries, kept, Folder, TWO};
use crate::ran::{command, run, run_in, Ran};
use std::ffi::OsStr;
use std::os::unix::ffi::OsStrExt;

fn used(folder: &Folder, words: &[&str]) -> Ran {
    run_in(folder, words, &entries(&TWO))
}

#[test]
fn help_is_everywhere() {
    let folder = Folder::new("help_is_everywhere");
    let help = used(&folder, &["--help"]);
    help.is_done(&help.printed);
    let commands = ["list", "count", "load", "check", "rebuild"];
    for command in commands {
        assert!(
            help.printed.contains(&format!("\n  selquorin {command} ")),
            "{command}"
        );
        assert_eq!(used(&folder, &[command, "--help"]), help);
        assert_eq!(used(&folder, &[command, "--what", "-h"]), help);
        assert_eq!(used(&folder, &[command, "--books", "--help"]), help);
    }
    let options = "--books --quorum --length --ask --from --help --version";
    assert!(options
        .split(' ')
        .all(|option| help.printed.contains(option)));
    for number in [1, 2, 3, 5, 6, 7, 8, 9, 11, 12] {
        assert!(help.printed.contains(&format!(" {number}  ")), "{number}");
    }
    for status in ["0 if", "1 if", "2 if", "3 if"] {
        assert!(help.printed.contains(status), "{status}");
    }
}

#[test]
fn version_is_everywhere() {
    let folder = Folder::new("version_is_everywhere");
    let version = concat!("selquorin ", env!("CARGO_PKG_VERSION"), "\n");
    for words in [
        &["--version"][..],
        &["-V"],
        &["list", "--version"],
        &["load", "a", "-V", "b"],
    ] {
        used(&folder, words).is_done(version);
    }
}

/// What is named, and the words that are wrong.
const WRONG: [(&str, &[&str]); 33] = [
    ("no command", &[]),
    ("no command lists", &["lists"]),
    ("no command ", &[""]),
    ("no command --books", &["--books", "b", "check"]),
    ("takes no --quiet", &["list", "--quiet"]),
    ("takes no -q", &["list", "-q"]),
    ("takes no --quorums=1", &["list", "--quorums=1"]),
    ("takes no --quorum", &["count", "--quorum", "1"]),
    ("takes no --from", &["list", "--from", "b"]),
    ("takes no b", &["list", "a", "b"]),
    ("takes no b", &["load", "a", "b", "--books", "c"]),
    ("takes no b", &["check", "b", "--books", "b"]),
    ("takes no b", &["rebuild", "b"]),
    ("takes no --books", &["check", "--", "--books", "b"]),
    ("--books is missing", &["load", "a"]),
    ("--books is missing", &["check"]),
    ("--books is missing", &["rebuild"]),
    ("--books has no value", &["check", "--books"]),
    (
        "--books has no value",
        &["list", "--books", "--quorum", "1"],
    ),
    ("--books has an empty value", &["load", "--books="]),
    (
        "--books is given twice",
        &["check", "--books", "b", "--books", "b"],
    ),
    (
        "--quorum is given twice",
        &["list", "--quorum", "1", "--quorum=1"],
    ),
    ("--quorum two is no number", &["list", "--quorum", "two"]),
    ("--length +2 is no number", &["list", "--length", "+2"]),
    ("a is no step", &["count", "1", "a"]),
    ("-1 is no step", &["count", "--", "-1"]),
    ("takes no -1", &["count", "-1"]),
    ("don't go together", &["list", "a", "--books", "b"]),
    (
        "don't go together",
        &["count", "--from", "a", "--books", "b"],
    ),
    (
        "don't go together",
        &["list", "--length", "1", "--ask", "a"],
    ),
    ("both books and ask", &["list", "--ask", "-"]),
    ("--books has to be a file", &["load", "--books", "-"]),
    ("--books has to be a file", &["rebuild", "--books=-"]),
];

#[test]
fn wrong_use_is_named_and_does_nothing() {
    let folder = Folder::new("wrong_use_is_named_and_does_nothing");
    folder.put("b", &kept(&TWO));
    for (named, words) in WRONG {
        used(&folder, words).is_wrong_use(named);
    }
    let word = OsStr::from_bytes(b"\xff");
    run(command(folder.path(), &[word]), b"").is_wrong_use("no command");
    folder.has("b", &kept(&TWO));
    assert_eq!(folder.names(), ["b"]);
}

/// The example's list.
const LIST: &str = "texts 2 rows 6\n0 2\n1 2 1\n2 2 1 1\n2 2 1 2\n1 2 2\nend 5\n";

/// Whichever way its journals and its ask come.
#[test]
fn a_list_from_a_file_or_standard_input() {
    let folder = Folder::new("a_list_from_a_file_or_standard_input");
    folder.put("-e", &entries(&TWO));
    folder.put("b", &kept(&TWO));
    folder.put("ask.bin", &[2, 3]);
    let ways: [&[&str]; 8] = [
        &["list"],
        &["list", "-"],
        &["list", "--", "-e"],
        &["list", "./-e", "--ask", "ask.bin"],
        &["list", "--ask=ask.bin", "--", "-"],
        &["list", "--length", "03", "--quorum=2", "./-e"],
        &["list", "--books", "b", "--length=3"],
        &["list", "--quorum", "2", "--books=b", "--ask", "ask.bin"],
    ];
    for words in ways {
        used(&folder, words).is_done(LIST);
    }
    run_in(&folder, &["list", "./-e", "--ask", "-"], &[2, 3]).is_done(LIST);
    run_in(&folder, &["list", "--books", "-"], &kept(&TWO)).is_done(LIST);
}

#[test]
fn a_count_from_a_file_or_standard_input() {
    let folder = Folder::new("a_count_from_a_file_or_standard_input");
    folder.put("e", &entries(&TWO));
    folder.put("b", &kept(&TWO));
    let ways: [&[&str]; 5] = [
        &["count", "2", "1"],
        &["count", "--from", "e", "2", "1"],
        &["count", "--from", "-", "2", "--", "1"],
        &["count", "2", "--books", "b", "1"],
        &["count", "02", "001"],
    ];
    for words in ways {
        used(&folder, words).is_done("1 of 2\n");
    }
    used(&folder, &["count"]).is_done("2 of 2\n");
    run_in(&folder, &["count", "2", "1", "--books=-"], &kept(&TWO)).is_done("1 of 2\n");
    run_in(&folder, &["check", "--books=-"], &kept(&TWO)).is_done("sound\n");
}

/// An ask file is read only where it is named, and a quorum beside it goes before its own.
#[test]
fn the_ask_is_read_only_where_it_is_named() {
    let folder = Folder::new("the_ask_is_read_only_where_it_is_named");
    folder.put("ask.bin", &[1, 0]);
    folder.put("empty", &[]);
    used(&folder, &["list"]).is_done(LIST);
    used(&folder, &["list", "--ask", "empty"]).is_done(LIST);
    used(&folder, &["list", "--ask", "ask.bin"]).is_done("texts 2 rows 6\n0 2\nend 1\n");
    used(&folder, &["list", "--ask", "ask.bin", "--quorum", "3"]).is_refused(8, "refused 8 ask\n");
    used(&folder, &["list", "--ask", "missing"]).has_failed("missing");
}
