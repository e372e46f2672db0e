//! Links the library's archive: the one that `OVERLAY_ARCHIVE` names, else the one that tools/native makes.

use std::path::{Path, PathBuf};
use std::process::{Command, Stdio};
use std::{env, fs};

fn main() {
    println!("cargo::rerun-if-changed=build.rs");
    println!("cargo::rerun-if-env-changed=OVERLAY_ARCHIVE");
    let root = Path::new(&variable("CARGO_MANIFEST_DIR")).join("../..");
    let archive = match env::var_os("OVERLAY_ARCHIVE").filter(|a| !a.is_empty()) {
        Some(given) => given_archive(root.join(given)),
        None => made_archive(&root),
    };
    // Copied, since an archive may have any name, and the linker looks for this one.
    let out = variable("OUT_DIR");
    fs::copy(&archive, Path::new(&out).join("libcalls.a")).unwrap_or_else(|e| panic!("{} cannot be read ({e})", archive.display()));
    println!("cargo::rustc-link-search=native={out}");
    println!("cargo::rustc-link-lib=static=calls");
}

fn variable(name: &str) -> String {
    env::var(name).unwrap_or_else(|_| panic!("{name} is not set: this is run by cargo"))
}

/// A path that is not absolute is taken from the repository's root, as tools/native prints it.
fn given_archive(archive: PathBuf) -> PathBuf {
    println!("cargo::rerun-if-changed={}", archive.display());
    archive
}

/// The archive itself is not watched here: made by this run it would be newer than the run, and the next build would make it again.
fn made_archive(root: &Path) -> PathBuf {
    for source in ["crates.txt", "tools/native"] {
        println!("cargo::rerun-if-changed={}", root.join(source).display());
    }
    // Not a crate's whole folder: its `out/` is written by the run itself.
    let folders = fs::read_dir(root.join("crates")).into_iter().flatten().flatten().map(|c| c.path());
    for part in folders.flat_map(|c| ["src", "specs", "proofs"].map(|p| c.join(p))).filter(|p| p.exists()) {
        println!("cargo::rerun-if-changed={}", part.display());
    }
    let made = Command::new(root.join("tools/native")).stderr(Stdio::inherit()).output();
    let help = "put Rattle's command `rt` on the PATH, or name a made archive in OVERLAY_ARCHIVE";
    let made = made.unwrap_or_else(|e| panic!("tools/native cannot be started ({e}): {help}"));
    assert!(made.status.success(), "tools/native failed: {help}");
    let printed = String::from_utf8(made.stdout).expect("tools/native prints a path");
    root.join(printed.lines().last().expect("tools/native prints where the archive is"))
}
