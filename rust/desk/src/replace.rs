//! A file replaced whole or not at all: the new one is written beside it, synced, and takes its
//! name; then the folder is synced. Whenever it is broken off, the old bytes stand there or the new
//! ones.

use std::fs::{self, File, Metadata, OpenOptions, Permissions};
use std::io::{self, ErrorKind, Write};
use std::os::unix::fs::{fchown, MetadataExt, OpenOptionsExt, PermissionsExt};
use std::path::{Path, PathBuf};
use std::process;

/// Replaces a file, or makes it. A link stays, and what it leads to is replaced.
pub fn replace(path: &Path, bytes: &[u8]) -> io::Result<()> {
    let old = old_file(path)?;
    let path = behind_links(path);
    let name = folder_of(&path);
    let folder = File::open(name)?;
    let mut beside = Beside::make(name, old.as_ref())?;
    beside.file.write_all(bytes)?;
    if let Some(old) = old {
        be_like(&beside.file, &old)?;
    }
    beside.file.sync_all()?;
    beside.rename(&path)?;
    folder.sync_all().map_err(|error| {
        let why = format!("it is replaced, but its folder isn't synced: {error}");
        io::Error::new(error.kind(), why)
    })
}

/// What stands there: nothing, or a file that may be written. Anything else isn't replaced.
fn old_file(path: &Path) -> io::Result<Option<Metadata>> {
    let old = match fs::metadata(path) {
        Err(error) if error.kind() == ErrorKind::NotFound => return Ok(None),
        old => old?,
    };
    if !old.is_file() {
        let why = "not a regular file";
        return Err(io::Error::new(ErrorKind::InvalidInput, why));
    }
    OpenOptions::new().write(true).open(path)?;
    Ok(Some(old))
}

/// The file that a path leads to, there or not. Links that lead to each other were an error before.
fn behind_links(path: &Path) -> PathBuf {
    let mut path = path.to_path_buf();
    while let Ok(to) = fs::read_link(&path) {
        path = folder_of(&path).join(to);
    }
    path
}

fn folder_of(path: &Path) -> &Path {
    match path.parent() {
        Some(folder) if folder != Path::new("") => folder,
        _ => Path::new("."),
    }
}

/// Gives the new file the old one's permissions, and its owner and group where the system lets it.
fn be_like(file: &File, old: &Metadata) -> io::Result<()> {
    let _ = fchown(file, Some(old.uid()), Some(old.gid()));
    file.set_permissions(Permissions::from_mode(old.mode() & 0o7777))
}

/// A new file in the folder. It goes unless it got its name.
struct Beside {
    path: PathBuf,
    file: File,
    named: bool,
}

impl Beside {
    /// Makes it under the first name that is free. Where it takes another's place, nobody else may
    /// read it before it has that one's permissions.
    fn make(folder: &Path, old: Option<&Metadata>) -> io::Result<Beside> {
        let mode = if old.is_some() { 0o600 } else { 0o666 };
        let mut options = OpenOptions::new();
        options.write(true).create_new(true).mode(mode);
        let mut number = 0;
        loop {
            let path = folder.join(format!(".selquorin-{}-{number}.new", process::id()));
            match options.open(&path) {
                Err(error) if error.kind() == ErrorKind::AlreadyExists => number += 1,
                made => {
                    let (file, named) = (made?, false);
                    return Ok(Beside { path, file, named });
                }
            }
        }
    }

    fn rename(&mut self, path: &Path) -> io::Result<()> {
        fs::rename(&self.path, path)?;
        self.named = true;
        Ok(())
    }
}

impl Drop for Beside {
    fn drop(&mut self) {
        if !self.named {
            let _ = fs::remove_file(&self.path);
        }
    }
}
