//! The header for C beside the Rust crate: the same version, and the same text for each number.

use selquorin::Error;
use std::io::{self, ErrorKind};
use std::path::Path;
use std::process::Command;

/// Compiles header.c, where a warning is an error; whether that was done.
fn compiles(compiler: &str, words: &[&str]) -> io::Result<bool> {
    let here = Path::new(env!("CARGO_MANIFEST_DIR"));
    let status = Command::new(compiler)
        .args(["-Wall", "-Wextra", "-Werror", "-pedantic", "-I"])
        .arg(here.join("../../include"))
        .args(words)
        .arg(here.join("tests/header.c"))
        .status()?;
    Ok(status.success())
}

/// The text of a number, by the Rust crate.
fn text(number: u16) -> String {
    let error = u8::try_from(number).ok().and_then(Error::from_number);
    match (number, error) {
        (0, _) => "done".to_string(),
        (_, Some(error)) => error.to_string(),
        (_, None) => "unknown number".to_string(),
    }
}

#[test]
fn versions_and_texts_are_the_same() {
    let program = concat!(env!("CARGO_TARGET_TMPDIR"), "/header");
    assert!(compiles("cc", &["-std=c99", "-o", program]).expect("cc can be run"));
    let said = Command::new(program).output().expect("header.c runs");
    let said = String::from_utf8(said.stdout).expect("it prints text");

    let version = env!("CARGO_PKG_VERSION").to_string();
    let mut expected = vec![version.clone(), version];
    expected.extend((0..=300).map(text));
    assert_eq!(said.lines().collect::<Vec<_>>(), expected);
}

/// Where there is a compiler for C++, it takes the header too.
#[test]
fn the_header_is_right_in_cpp() {
    match compiles("c++", &["-x", "c++", "-std=c++11", "-fsyntax-only"]) {
        Ok(compiled) => assert!(compiled),
        Err(error) if error.kind() == ErrorKind::NotFound => eprintln!("no c++: passed over"),
        Err(error) => panic!("c++ can't be run: {error}"),
    }
}
