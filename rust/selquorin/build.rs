//! Finds libselquorin.a, which `bash rust/archive.sh` makes: in the folder that SELQUORIN_LIB
//! names (from this crate's folder on, if it isn't absolute), or else in target/staticlib of the
//! repository.

use std::env;
use std::path::Path;

fn main() {
    println!("cargo:rerun-if-env-changed=SELQUORIN_LIB");
    let here = env::var("CARGO_MANIFEST_DIR").expect("cargo says where the crate is");
    let folder = match env::var_os("SELQUORIN_LIB") {
        Some(folder) => Path::new(&here).join(folder),
        None => Path::new(&here).join("../../target/staticlib"),
    };
    let archive = folder.join("libselquorin.a");
    println!("cargo:rerun-if-changed={}", archive.display());
    assert!(
        archive.is_file(),
        "there is no {}: run `bash rust/archive.sh` at the root of the repository, or set \
         SELQUORIN_LIB to the folder that holds libselquorin.a",
        archive.display()
    );
    println!("cargo:rustc-link-search=native={}", folder.display());
    println!("cargo:rustc-link-lib=static=selquorin");
}
