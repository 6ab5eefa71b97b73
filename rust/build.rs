//! Tells cargo where the static library lies, and stops the build where it is
//! missing: the linker's own message wouldn't say what to do.
//!
//! It is looked for in the folder named by `TTEOLMIGU_LIB_DIR`, or else in
//! `target/staticlib` of the repository that holds this package.

use std::env;
use std::path::{Path, PathBuf};
use std::process::exit;

/// The folder that should hold `libtteolmigu.a`.
fn library_folder() -> PathBuf {
    match env::var_os("TTEOLMIGU_LIB_DIR") {
        Some(folder) => PathBuf::from(folder),
        None => {
            let package = env::var_os("CARGO_MANIFEST_DIR").expect("cargo names the package");
            Path::new(&package).join("../target/staticlib")
        }
    }
}

fn main() {
    let folder = library_folder();
    let library = folder.join("libtteolmigu.a");
    println!("cargo:rerun-if-env-changed=TTEOLMIGU_LIB_DIR");
    println!("cargo:rerun-if-changed=build.rs");
    println!("cargo:rerun-if-changed={}", library.display());
    if !library.is_file() {
        eprintln!("{} is missing.", library.display());
        eprintln!("Run './build tteolmigu' in the repository that holds this package,");
        eprintln!("or set TTEOLMIGU_LIB_DIR to the folder that has libtteolmigu.a.");
        exit(1);
    }
    // The linker doesn't run in this package's folder, so it gets the whole path.
    let folder = folder.canonicalize().unwrap_or(folder);
    println!("cargo:rustc-link-search=native={}", folder.display());
    println!("cargo:rustc-link-lib=static=tteolmigu");
}
