//! Links the libraries of the repository that export calls, having them proved and built first.
//!
//! `YARROWBELL_LIBRARY` may name a folder that holds other archives of the same names, as spoilt
//! ones that the tests must catch; nothing is built then.

use std::path::{Path, PathBuf};
use std::process::Command;
use std::{env, fs};

/// One name in a line: the frames, the packets read and written, the ring and the box by value; the
/// box lent by reference.
const LIBRARIES: &str = include_str!("libraries");

fn main() {
    println!("cargo:rerun-if-env-changed=YARROWBELL_LIBRARY");
    // The archives are linked from copies of our own, as they are written anew with each proof.
    let own = PathBuf::from(env::var_os("OUT_DIR").expect("cargo sets OUT_DIR"));
    println!("cargo:rustc-link-search=native={}", own.display());
    let made = match env::var_os("YARROWBELL_LIBRARY") {
        Some(folder) => PathBuf::from(folder),
        None => proved(),
    };
    for library in LIBRARIES.lines() {
        let archive = format!("lib{library}.a");
        if env::var_os("YARROWBELL_LIBRARY").is_some() {
            watch(&made.join(&archive));
        }
        if let Err(error) = fs::copy(made.join(&archive), own.join(&archive)) {
            panic!("cannot copy {}: {error}", made.join(&archive).display());
        }
        println!("cargo:rustc-link-lib=static={library}");
    }
}

/// The folder of the archives that are made from the repository's crates. The archives are not
/// watched themselves: they are written anew with each proof.
fn proved() -> PathBuf {
    let package = env::var_os("CARGO_MANIFEST_DIR").expect("cargo sets CARGO_MANIFEST_DIR");
    let package = Path::new(&package);
    let top = package.parent().expect("this package lies in the repository");
    let prove = package.join("prove-libraries");
    for path in [&top.join("crates.txt"), &package.join("libraries"), &prove] {
        watch(path);
    }
    watch_sources(&top.join("crates"));
    match Command::new(&prove).status() {
        Ok(status) if status.success() => top.join("target/staticlib"),
        Ok(status) => panic!("`{}` failed: {status}", prove.display()),
        Err(error) => panic!("cannot run `{}`: {error}", prove.display()),
    }
}

/// Watches what a proof reads of each crate, and not its folder `out`, where `rt` writes.
fn watch_sources(crates: &Path) {
    let folders = fs::read_dir(crates).expect("the repository has a folder of crates");
    for folder in folders {
        let folder = folder.expect("the folder of crates can be read").path();
        for part in ["src", "specs", "proofs"].map(|part| folder.join(part)) {
            if part.exists() {
                watch(&part);
            }
        }
    }
}

/// Cargo runs this program again when the path changes.
fn watch(path: &Path) {
    println!("cargo:rerun-if-changed={}", path.display());
}
