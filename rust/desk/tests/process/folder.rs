//! A folder for one test, and what is put into it.

use plain::{journal_book, picture, Journal};
use std::fs;
use std::path::{Path, PathBuf};

/// A folder that goes with its test.
pub struct Folder(PathBuf);

impl Folder {
    /// An empty folder for the test of this name.
    pub fn new(test: &str) -> Folder {
        let path = Path::new(env!("CARGO_TARGET_TMPDIR")).join(test);
        let _ = fs::remove_dir_all(&path);
        fs::create_dir_all(&path).expect("the folder is made");
        Folder(path)
    }

    pub fn path(&self) -> &Path {
        &self.0
    }

    pub fn join(&self, name: &str) -> PathBuf {
        self.0.join(name)
    }

    pub fn put(&self, name: &str, bytes: &[u8]) {
        fs::write(self.join(name), bytes).expect("the file is written");
    }

    /// Holds a file to its bytes; they are too many to be shown.
    pub fn has(&self, name: &str, bytes: &[u8]) {
        let seen = fs::read(self.join(name)).expect("the file is read");
        assert!(seen == bytes, "{name} has other bytes");
    }

    /// The names of what is in it, in order.
    pub fn names(&self) -> Vec<String> {
        let entries = fs::read_dir(&self.0).expect("the folder is read");
        let name = |entry: std::io::Result<fs::DirEntry>| entry.map(|e| e.file_name());
        let names = entries.map(|entry| name(entry).expect("an entry is read"));
        let mut names: Vec<String> = names
            .map(|n| n.into_string().expect("plain text"))
            .collect();
        names.sort();
        names
    }
}

impl Drop for Folder {
    fn drop(&mut self) {
        let _ = fs::remove_dir_all(&self.0);
    }
}

/// The two journals of the example, and those of one site alone.
pub const TWO: [&[u8]; 2] = [&[1, 2, 1], &[1, 1, 2]];
pub const ONE: [&[u8]; 1] = [&[15, 0, 15]];

/// Entries that open each journal by its first step, or only open it.
pub fn entries(journals: &[&[u8]]) -> Vec<u8> {
    let mut bytes = Vec::new();
    for (number, journal) in (0..).zip(journals) {
        let steps = if journal.is_empty() { &[255] } else { *journal };
        bytes.extend(steps.iter().flat_map(|&step| [number, step]));
    }
    bytes
}

/// The file that keeps the books of these journals, by the plain implementation.
pub fn kept(journals: &[&[u8]]) -> Vec<u8> {
    let journals: Vec<Journal> = journals.iter().map(|journal| journal.to_vec()).collect();
    let rows = picture(&journals).expect("the journals fit");
    [journal_book(&journals), rows].concat()
}
