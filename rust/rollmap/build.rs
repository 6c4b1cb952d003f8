//! Says where the proved library's archive is, for this crate and for its tests.

use std::env;
use std::path::{absolute, PathBuf};

/// The archive, as `./build` writes it.
const ARCHIVE: &str = "librollmap.a";

fn main() {
    println!("cargo::rerun-if-changed=build.rs");
    println!("cargo::rerun-if-env-changed=ROLLMAP_LIB_DIR");
    let folder = absolute(archive_folder()).expect("the archive's folder has a path");
    let archive = folder.join(ARCHIVE);
    println!("cargo::rerun-if-changed={}", archive.display());
    if !archive.is_file() {
        println!(
            "cargo::error={} is missing: run `./build` at the root of the \
             repository, or set ROLLMAP_LIB_DIR to the folder that has {ARCHIVE}",
            archive.display()
        );
        return;
    }
    println!("cargo::rustc-link-search=native={}", folder.display());
    println!("cargo::rustc-link-lib=static=rollmap");
    println!("cargo::rustc-env=ROLLMAP_ARCHIVE={}", archive.display());
}

/// The folder that the environment names (a relative one is taken from this
/// crate's folder), else the one in the repository.
fn archive_folder() -> PathBuf {
    match env::var_os("ROLLMAP_LIB_DIR") {
        Some(folder) => PathBuf::from(folder),
        None => {
            let crate_folder = env::var_os("CARGO_MANIFEST_DIR").expect("cargo names the crate");
            PathBuf::from(crate_folder).join("../../target/staticlib")
        }
    }
}
