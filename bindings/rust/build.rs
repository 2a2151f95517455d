//! Links the library's archive, libcapi.a: from the directory that NAHUITEPOL_LIB names, else from the
//! project's crates/capi/out.

use std::env;
use std::path::{Path, PathBuf};

fn main() {
    let directory = archive_directory();
    let archive = directory.join("libcapi.a");
    assert!(
        archive.is_file(),
        "{} is missing: build it, or let NAHUITEPOL_LIB name the directory that has it",
        archive.display()
    );
    println!("cargo:rerun-if-env-changed=NAHUITEPOL_LIB");
    println!("cargo:rerun-if-changed={}", archive.display());
    println!("cargo:rustc-link-search=native={}", directory.display());
    println!("cargo:rustc-link-lib=static=capi");
}

fn archive_directory() -> PathBuf {
    match env::var_os("NAHUITEPOL_LIB") {
        Some(directory) => PathBuf::from(directory),
        None => {
            let package = env::var_os("CARGO_MANIFEST_DIR").expect("cargo names the package's folder");
            Path::new(&package).join("../../crates/capi/out")
        }
    }
}
