//! A second, independent implementation of the hyphenation rules, and makers
//! of words, lists and tables to try the library with.
//!
//! - [`reference`] holds the rules, written from the scope document alone.
//! - [`make`] makes cases: words, lists, right tables, damaged and random ones.
//! - [`fence`] lends memory that ends or begins at pages nobody may touch.
//! - [`lab`] runs one call of the library and compares everything with the
//!   reference: the 64 bits of the answer, the room, the bytes around it, and
//!   that the inputs are as they were.

pub mod fence;
pub mod lab;
pub mod make;
pub mod reference;
pub mod rng;

use std::path::PathBuf;

/// Reads a file of the repository's `data` folder.
pub fn data(name: &str) -> std::io::Result<Vec<u8>> {
    let package = PathBuf::from(env!("CARGO_MANIFEST_DIR"));
    std::fs::read(package.join("../data").join(name))
}
