//! One run of the program.

use crate::folder::Folder;
use std::ffi::OsStr;
use std::io::Write;
use std::os::unix::process::ExitStatusExt;
use std::path::Path;
use std::process::{Command, Output, Stdio};

/// The built program.
const PROGRAM: &str = env!("CARGO_BIN_EXE_selquorin");

/// How a run ended.
#[derive(Debug, PartialEq, Eq)]
pub struct Ran {
    /// The status; none if a signal ended it.
    pub status: Option<i32>,
    pub signal: Option<i32>,
    pub printed: String,
    pub said: String,
}

impl Ran {
    pub fn new(output: Output) -> Ran {
        let text = |bytes| String::from_utf8(bytes).expect("it prints plain text");
        Ran {
            status: output.status.code(),
            signal: output.status.signal(),
            printed: text(output.stdout),
            said: text(output.stderr),
        }
    }

    /// Done, with this printed and nothing said.
    pub fn is_done(&self, printed: &str) {
        let seen = (self.status, &self.printed[..], &self.said[..]);
        assert_eq!(seen, (Some(0), printed, ""));
    }

    /// Refused with a number, which stands in the one line that is said; with this printed.
    pub fn is_refused(&self, number: u8, printed: &str) {
        assert_eq!((self.status, &self.printed[..]), (Some(1), printed));
        let number = format!(" refused, number {number}: ");
        assert!(
            self.said.starts_with("selquorin: ") && self.said.contains(&number),
            "{self:?}"
        );
        assert_eq!(self.said.lines().count(), 1, "{self:?}");
    }

    /// Reading or writing failed, which the last line that is said tells. Nothing is printed.
    pub fn has_failed(&self, what: &str) {
        assert_eq!((self.status, &self.printed[..]), (Some(2), ""), "{self:?}");
        let last = self.said.lines().last().unwrap_or_default();
        assert!(
            last.starts_with(&format!("selquorin: {what}: ")),
            "{self:?}"
        );
    }

    /// Used wrongly: nothing is printed, and what is wrong is named.
    pub fn is_wrong_use(&self, named: &str) {
        assert_eq!((self.status, &self.printed[..]), (Some(3), ""), "{self:?}");
        assert!(
            self.said.starts_with("selquorin: ") && self.said.contains(named),
            "{self:?}"
        );
        assert!(
            self.said
                .ends_with("selquorin --help says how it is used\n"),
            "{self:?}"
        );
    }
}

/// A command of the program, in a folder.
pub fn command<A: AsRef<OsStr>>(folder: &Path, words: &[A]) -> Command {
    let mut command = Command::new(PROGRAM);
    command.args(words).current_dir(folder);
    command
}

/// A command of the program that a shell makes ready with some text of its own.
pub fn command_behind(ready: &str, folder: &Path, words: &[&str]) -> Command {
    let mut command = Command::new("sh");
    let text = format!("{ready}\nexec \"$0\" \"$@\"");
    command
        .args(["-c", &text, PROGRAM])
        .args(words)
        .current_dir(folder);
    command
}

/// Runs a command of the program in a folder, with some bytes as its input.
pub fn run_in(folder: &Folder, words: &[&str], input: &[u8]) -> Ran {
    run(command(folder.path(), words), input)
}

/// Runs a command with some bytes as its input. It need not read them.
pub fn run(command: Command, input: &[u8]) -> Ran {
    run_into(command, input, Stdio::piped())
}

/// The same with its output going elsewhere.
pub fn run_into(mut command: Command, input: &[u8], output: impl Into<Stdio>) -> Ran {
    command
        .stdin(Stdio::piped())
        .stdout(output)
        .stderr(Stdio::piped());
    let mut child = command.spawn().expect("it starts");
    let _ = child.stdin.take().expect("a pipe").write_all(input);
    Ran::new(child.wait_with_output().expect("it ends"))
}
