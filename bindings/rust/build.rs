//! Links the proved static library from `GANNETROPE_LIB_DIR`, or from where `scripts/build library` leaves it.

use std::{env, path::PathBuf};

const ARCHIVE: &str = "libcapi.a";

fn main() {
    let directory = library_directory();
    let archive = directory.join(ARCHIVE);
    if !archive.is_file() {
        println!(
            "cargo::error={} is missing: run `scripts/build library`, or set GANNETROPE_LIB_DIR",
            archive.display()
        );
        return;
    }
    println!("cargo::rerun-if-env-changed=GANNETROPE_LIB_DIR");
    println!("cargo::rerun-if-changed={}", archive.display());
    println!("cargo::rustc-link-search=native={}", directory.display());
    println!("cargo::rustc-link-lib=static=capi");
}

fn library_directory() -> PathBuf {
    match env::var_os("GANNETROPE_LIB_DIR") {
        Some(directory) => PathBuf::from(directory),
        None => PathBuf::from(env::var_os("CARGO_MANIFEST_DIR").expect("cargo sets it")).join("../../target/staticlib"),
    }
}
