//! Input that can't be read, output that can't be written, and those that have no end.

use crate::folder::{entries, kept, Folder, TWO};
use crate::ran::{command, run_in, run_into, Ran};
use std::fs::{File, OpenOptions};
use std::io::{Read, Write};
use std::process::Stdio;

/// Commands that print, with what they read.
const PRINTING: [&[&str]; 8] = [
    &["--help"],
    &["count", "--version"],
    &["list"],
    &["list", "--quorum", "9"],
    &["list", "--books", "b"],
    &["count", "1"],
    &["check", "--books", "b"],
    &["check", "--books", "damaged"],
];

fn folder(test: &str) -> Folder {
    let folder = Folder::new(test);
    let mut bytes = kept(&TWO);
    folder.put("b", &bytes);
    bytes[0] = 2;
    folder.put("damaged", &bytes);
    folder
}

fn open(options: &mut OpenOptions, path: &str) -> File {
    options.open(path).expect("the device is there")
}

#[test]
fn a_full_device() {
    let folder = folder("a_full_device");
    for words in PRINTING {
        let full = open(OpenOptions::new().write(true), "/dev/full");
        run_into(command(folder.path(), words), &entries(&TWO), full).has_failed("standard output");
    }
}

#[test]
fn an_output_that_can_only_be_read() {
    let folder = folder("an_output_that_can_only_be_read");
    for words in PRINTING {
        let null = open(OpenOptions::new().read(true), "/dev/null");
        run_into(command(folder.path(), words), &entries(&TWO), null).has_failed("standard output");
    }
}

/// What is refused is said where it can't be printed.
#[test]
fn a_refusal_is_said_though_it_cannot_be_printed() {
    let folder = folder("a_refusal_is_said_though_it_cannot_be_printed");
    for (number, words) in [
        (8, &["list", "--quorum", "9"][..]),
        (2, &["check", "--books", "damaged"]),
    ] {
        let full = open(OpenOptions::new().write(true), "/dev/full");
        let ran = run_into(command(folder.path(), words), &entries(&TWO), full);
        assert!(ran.said.contains(&format!("number {number}: ")), "{ran:?}");
    }
}

/// The reader has left before the program has anything to print, which waits for the end of its
/// input.
#[test]
fn a_closed_pipe() {
    let folder = folder("a_closed_pipe");
    let commands: [(&[&str], Vec<u8>); 4] = [
        (&["list"], entries(&TWO)),
        (&["list", "--quorum", "9"], entries(&TWO)),
        (&["count"], entries(&TWO)),
        (&["check", "--books", "-"], kept(&TWO)),
    ];
    for (words, input) in commands {
        let mut command = command(folder.path(), words);
        command.stdin(Stdio::piped()).stdout(Stdio::piped());
        let mut child = command.stderr(Stdio::piped()).spawn().expect("it starts");
        drop(child.stdout.take());
        let mut pipe = child.stdin.take().expect("a pipe");
        pipe.write_all(&input).expect("it reads");
        drop(pipe);
        let ran = Ran::new(child.wait_with_output().expect("it ends"));
        ran.has_failed("standard output");
    }
}

/// A list of billions of words is printed as it is found, and ends when its reader leaves.
#[test]
fn a_list_without_end() {
    let folder = Folder::new("a_list_without_end");
    let journal: Vec<u8> = (0..200).map(|n| n % 16).collect();
    folder.put("e", &entries(&[&journal]));
    let mut command = command(folder.path(), &["list", "e"]);
    command.stdout(Stdio::piped()).stderr(Stdio::piped());
    let mut child = command.spawn().expect("it starts");
    let mut begin = [0; 44];
    let mut out = child.stdout.take().expect("a pipe");
    out.read_exact(&mut begin).expect("it prints");
    drop(out);
    assert_eq!(
        &begin[..],
        b"texts 1 rows 201\n0 1\n1 1 0\n2 1 0 0\n3 1 0 0 0"
    );
    let ran = Ran::new(child.wait_with_output().expect("it ends"));
    ran.has_failed("standard output");
}

/// No more is read than can matter.
#[test]
fn an_input_without_end() {
    let folder = Folder::new("an_input_without_end");
    let zero = "/dev/zero";
    run_in(&folder, &["list", zero], b"").is_refused(5, "refused 5 record 200\n");
    run_in(&folder, &["load", zero, "--books", "b"], b"").is_refused(5, "");
    run_in(&folder, &["check", "--books", zero], b"").is_refused(1, "");
    run_in(&folder, &["list", "--ask", zero], &entries(&TWO)).is_refused(12, "refused 12 ask\n");
    assert!(folder.names().is_empty());
}

#[test]
fn a_file_that_cannot_be_read() {
    let folder = folder("a_file_that_cannot_be_read");
    for name in ["missing", "."] {
        let commands: [&[&str]; 8] = [
            &["list", name],
            &["list", "--books", name],
            &["list", "--ask", name],
            &["count", "--from", name],
            &["count", "16", "--books", name],
            &["load", name, "--books", "new"],
            &["check", "--books", name],
            &["rebuild", "--books", name],
        ];
        for words in commands {
            run_in(&folder, words, b"").has_failed(name);
        }
    }
    assert_eq!(folder.names(), ["b", "damaged"]);
}

/// An input that can't be read isn't an empty one: the books stay.
#[test]
fn a_standard_input_that_cannot_be_read() {
    let folder = folder("a_standard_input_that_cannot_be_read");
    let inputs: [fn() -> File; 2] = [
        || open(OpenOptions::new().read(true), "/dev"),
        || open(OpenOptions::new().write(true), "/dev/null"),
    ];
    for words in [
        &["list"][..],
        &["count"],
        &["load", "--books", "b"],
        &["check", "--books=-"],
    ] {
        for input in inputs {
            let mut command = command(folder.path(), words);
            let output = command.stdin(input()).output().expect("it runs");
            Ran::new(output).has_failed("standard input");
        }
    }
    folder.has("b", &kept(&TWO));
}

/// Where nothing can be said the status tells.
#[test]
fn a_full_standard_error() {
    let folder = folder("a_full_standard_error");
    for (status, words) in [
        (1, &["count", "16"][..]),
        (2, &["list", "missing"]),
        (3, &["what"]),
    ] {
        let mut command = command(folder.path(), words);
        command.stdin(Stdio::null()).stdout(Stdio::null());
        command.stderr(open(OpenOptions::new().write(true), "/dev/full"));
        assert_eq!(command.status().expect("it runs").code(), Some(status));
    }
}
