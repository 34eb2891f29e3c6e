//! Finds the archive that `tools/build door` writes, and has it linked.

use std::env;
use std::path::{Path, PathBuf};
use std::process;

/// The environment variable that names another folder for the archive, by its whole path.
const FOLDER: &str = "DORRIVAND_LIB";

fn folder_of_the_archive() -> PathBuf {
    match env::var_os(FOLDER) {
        Some(folder) => PathBuf::from(folder),
        None => Path::new(env!("CARGO_MANIFEST_DIR")).join("../target/staticlib"),
    }
}

fn main() {
    let folder = folder_of_the_archive();
    let archive = folder.join("libdoor.a");
    println!("cargo:rerun-if-env-changed={FOLDER}");
    println!("cargo:rerun-if-changed={}", archive.display());
    if !archive.is_file() {
        eprintln!("dorrivand: the library is not there: {}", archive.display());
        eprintln!("run `tools/build door` first, or let {FOLDER} name the folder that has libdoor.a");
        process::exit(1);
    }
    println!("cargo:rustc-link-search=native={}", folder.display());
    println!("cargo:rustc-link-lib=static=door");
}
