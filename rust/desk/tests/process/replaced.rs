//! The file of books: what it has in it, and that it is replaced in its own place.

use crate::folder::{entries, kept, Folder, ONE, TWO};
use crate::ran::{command_behind, run, run_in, Ran};
use plain::JOURNAL_BOOK;
use std::fs::{self, Permissions};
use std::os::unix::fs::{symlink, FileTypeExt, PermissionsExt};
use std::process::Command;

fn load(folder: &Folder, books: &str) -> Ran {
    run_in(folder, &["load", "--books", books], &entries(&TWO))
}

fn mode(folder: &Folder, name: &str) -> u32 {
    let metadata = fs::metadata(folder.join(name)).expect("it is there");
    metadata.permissions().mode() & 0o7777
}

#[test]
fn books_are_kept() {
    let folder = Folder::new("books_are_kept");
    folder.put("old", b"no books at all");
    for name in ["new", "old", &"n".repeat(255)] {
        load(&folder, name).is_done("");
        folder.has(name, &kept(&TWO));
    }
    folder.put("e", &entries(&ONE));
    let path = folder.join("old");
    let path = path.to_str().expect("plain text");
    run_in(&folder, &["load", "e", "--books", path], b"").is_done("");
    folder.has("old", &kept(&ONE));
    run_in(&folder, &["load", "--books", "new"], b"").is_done("");
    folder.has("new", &[0; 68_096]);
    assert_eq!(folder.names(), ["e", "new", &"n".repeat(255), "old"]);
}

/// The rows of whatever the file held: those of the journals.
#[test]
fn books_are_rebuilt() {
    let folder = Folder::new("books_are_rebuilt");
    let due = kept(&TWO);
    symlink("b", folder.join("link")).expect("a link is made");
    for byte in [0, 1, 255] {
        let mut bytes = due.clone();
        bytes[JOURNAL_BOOK..].fill(byte);
        for books in ["b", "link"] {
            folder.put("b", &bytes);
            run_in(&folder, &["rebuild", "--books", books], b"").is_done("");
            folder.has("b", &due);
        }
    }
    run_in(&folder, &["rebuild", "--books=b"], b"").is_done("");
    folder.has("b", &due);
    assert!(fs::read_link(folder.join("link")).is_ok());
    assert_eq!(folder.names(), ["b", "link"]);
}

#[test]
fn permissions_stay() {
    let folder = Folder::new("permissions_stay");
    let words = ["load", "--books", "new"];
    run(
        command_behind("umask 027", folder.path(), &words),
        &entries(&TWO),
    )
    .is_done("");
    assert_eq!(mode(&folder, "new"), 0o640);
    for allowed in [0o600, 0o604, 0o664, 0o777] {
        folder.put("old", b"");
        fs::set_permissions(folder.join("old"), Permissions::from_mode(allowed))
            .expect("it is ours");
        let words = ["load", "--books", "old"];
        run(
            command_behind("umask 027", folder.path(), &words),
            &entries(&TWO),
        )
        .is_done("");
        assert_eq!(mode(&folder, "old"), allowed);
    }
}

/// What a link leads to is replaced, or made.
#[test]
fn links_stay() {
    let folder = Folder::new("links_stay");
    fs::create_dir(folder.join("in")).expect("a folder is made");
    folder.put("in/old", b"");
    for (link, to) in [("one", "in/old"), ("in/two", "../one"), ("three", "in/new")] {
        symlink(to, folder.join(link)).expect("a link is made");
        folder.put("in/old", b"");
        load(&folder, link).is_done("");
        folder.has(
            if link == "three" { "in/new" } else { "in/old" },
            &kept(&TWO),
        );
        let stays = fs::read_link(folder.join(link)).expect("it is a link");
        assert_eq!(stays.to_str(), Some(to));
    }
    symlink("loop", folder.join("loop")).expect("a link is made");
    load(&folder, "loop").has_failed("loop");
    assert_eq!(folder.names(), ["in", "loop", "one", "three"]);
}

/// What is no file, or has no folder that can be written, stays as it is.
#[test]
fn only_a_file_is_replaced() {
    let folder = Folder::new("only_a_file_is_replaced");
    fs::create_dir(folder.join("folder")).expect("a folder is made");
    let made = Command::new("mkfifo").arg(folder.join("pipe")).status();
    assert!(made.expect("mkfifo runs").success());
    for books in [
        "folder",
        "pipe",
        "missing/b",
        "pipe/b",
        "/proc/b",
        "folder/",
    ] {
        load(&folder, books).has_failed(books);
    }
    let pipe = fs::metadata(folder.join("pipe")).expect("it is there");
    assert!(pipe.file_type().is_fifo());
    assert_eq!(folder.names(), ["folder", "pipe"]);
}

/// A name that another took is left to it.
#[test]
fn a_name_that_is_taken() {
    let folder = Folder::new("a_name_that_is_taken");
    let taken = "for n in 0 1 2; do echo taken >.selquorin-$$-$n.new; done";
    let words = ["load", "--books", "b"];
    run(command_behind(taken, folder.path(), &words), &entries(&TWO)).is_done("");
    folder.has("b", &kept(&TWO));
    let names = folder.names();
    assert_eq!(names.len(), 4);
    for name in &names[..3] {
        folder.has(name, b"taken\n");
    }
}
