//! What the tests share.

#![allow(dead_code)]

pub mod joins;

use std::path::{Path, PathBuf};

/// A path from the repository's root.
pub fn path(name: &str) -> PathBuf {
    Path::new(env!("CARGO_MANIFEST_DIR")).join("../..").join(name)
}

/// A file's bytes.
pub fn read(name: &str) -> Vec<u8> {
    std::fs::read(path(name)).unwrap_or_else(|e| panic!("{name} cannot be read ({e}): run the tests inside the repository"))
}

/// A file's text.
pub fn text(name: &str) -> String {
    String::from_utf8(read(name)).unwrap_or_else(|_| panic!("{name} is no UTF-8"))
}
