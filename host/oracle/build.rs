//! Lays the given Rust text and the files that stand around it into one tree of modules under the build's folder, each given file only
//! where its checksum is the stored one. Where the folder of the text is not there, the crate is built without it.

mod sha256;

use std::path::{Path, PathBuf};
use std::{env, fs};

/// The folder of the given text, from the repository's root, where `OVERLAY_RUST_TEXT` names no other.
const DEFAULT: &str = "../shared/docs/src";

/// What else can be done about a file that is not as it should be.
const OTHER: &str = "or name the folder of the text in OVERLAY_RUST_TEXT, or a folder that is not there to build without the text";

fn main() {
    for watched in ["build.rs", "sha256.rs", "text.sha256", "around"] {
        println!("cargo::rerun-if-changed={watched}");
    }
    println!("cargo::rerun-if-env-changed=OVERLAY_RUST_TEXT");
    println!("cargo::rustc-check-cfg=cfg(text)");
    println!("cargo::rustc-check-cfg=cfg(feature, values(\"async-io\", \"fusedev\", \"virtiofs\"))");
    let given = given_folder();
    println!("cargo::rerun-if-changed={}", given.display());
    if !given.is_dir() {
        return;
    }
    let tree = Path::new(&variable("OUT_DIR")).join("text");
    if tree.exists() {
        fs::remove_dir_all(&tree).unwrap_or_else(|e| panic!("{} cannot be emptied ({e})", tree.display()));
    }
    lay_around(Path::new("around"), &tree);
    lay_given(&given, &tree);
    println!("cargo::rustc-cfg=text");
    println!("cargo::rustc-cfg=feature=\"fusedev\"");
}

fn variable(name: &str) -> String {
    env::var(name).unwrap_or_else(|_| panic!("{name} is not set: this is run by cargo"))
}

/// A folder that is not absolute is taken from the repository's root.
fn given_folder() -> PathBuf {
    let root = Path::new(&variable("CARGO_MANIFEST_DIR")).join("../..");
    root.join(env::var_os("OVERLAY_RUST_TEXT").filter(|f| !f.is_empty()).unwrap_or(DEFAULT.into()))
}

/// Copies the files of `around`, folder by folder.
fn lay_around(from: &Path, to: &Path) {
    fs::create_dir_all(to).unwrap_or_else(|e| panic!("{} cannot be made ({e})", to.display()));
    let listed = fs::read_dir(from).unwrap_or_else(|e| panic!("{} cannot be read ({e})", from.display()));
    for entry in listed.map(|e| e.expect("a folder's entry")) {
        let (from, to) = (entry.path(), to.join(entry.file_name()));
        match from.is_dir() {
            true => lay_around(&from, &to),
            false => put(&to, &read(&from)),
        }
    }
}

/// Copies the files that text.sha256 lists, in the form of `sha256sum`.
fn lay_given(given: &Path, tree: &Path) {
    let list = fs::read_to_string("text.sha256").unwrap_or_else(|e| panic!("text.sha256 cannot be read ({e})"));
    for line in list.lines() {
        let (sum, name) = line.split_once("  ").unwrap_or_else(|| panic!("text.sha256: `{line}` is no checksum, two spaces and a file"));
        let bytes = read(&given.join(name));
        let found = sha256::hex(&bytes);
        if found != sum {
            let what = format!("{name} in {} is not the file of fuse-backend-rs 0.14.0", given.display());
            refuse(&format!("{what} (checksum {found}, stored {sum}): bring the published file back, {OTHER}"));
        }
        let module = name.strip_prefix("src/").unwrap_or_else(|| panic!("text.sha256: `{name}` does not start with src/"));
        put(&tree.join(module), &bytes);
    }
}

fn read(file: &Path) -> Vec<u8> {
    fs::read(file).unwrap_or_else(|e| refuse(&format!("{} cannot be read ({e}): bring the file back, {OTHER}", file.display())))
}

/// Ends the build with words for the person who started it.
fn refuse(words: &str) -> ! {
    println!("cargo::error={words}");
    std::process::exit(1)
}

/// Writes a file of the tree, in a folder that is made first.
fn put(file: &Path, bytes: &[u8]) {
    let folder = file.parent().expect("a file of the tree has a folder");
    fs::create_dir_all(folder).unwrap_or_else(|e| panic!("{} cannot be made ({e})", folder.display()));
    fs::write(file, bytes).unwrap_or_else(|e| panic!("{} cannot be written ({e})", file.display()));
}
