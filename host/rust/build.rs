//! Finds the folder of the static library and links it.

use std::env;
use std::path::PathBuf;

/// Names the folder of the static library; without it the folder that the repository builds into.
const FOLDER_VARIABLE: &str = "JISZTERUK_LIB";
const BUILT_FOLDER: &str = "../../target/staticlib";
const LIBRARY: &str = "host";

fn main() {
    let folder = library_folder();
    let file = folder.join(format!("lib{LIBRARY}.a"));
    println!("cargo:rerun-if-env-changed={FOLDER_VARIABLE}");
    println!("cargo:rerun-if-changed={}", file.display());
    if !file.is_file() {
        eprintln!(
            "The static library {} is not there: build it, or set {FOLDER_VARIABLE} to its folder.",
            file.display()
        );
        std::process::exit(1);
    }
    println!("cargo:rustc-link-search=native={}", folder.display());
    println!("cargo:rustc-link-lib=static={LIBRARY}");
}

/// The folder is taken from the package's own folder where it is not an absolute one.
fn library_folder() -> PathBuf {
    let package = PathBuf::from(env::var_os("CARGO_MANIFEST_DIR").expect("Cargo sets it"));
    match env::var_os(FOLDER_VARIABLE) {
        Some(folder) => package.join(folder),
        None => package.join(BUILT_FOLDER),
    }
}
