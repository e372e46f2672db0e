//! Removal and mkdir, which are in the Rust and not in document 01: where what was deleted comes back at the next import.

mod common;

use common::*;
use oracle::Oracle;

const FILE: &str = "record 2 regular 0644 content 5\nentry 0 1 2 x";
const NEWER: &str = "record 2 regular 0644 content 6\nentry 0 1 2 x";
const DIR: &str = "record 2 directory 0755\nentry 0 1 2 x";
const OPAQUE: &str = "record 2 directory 0755 opaque 1\nentry 0 1 2 x";

/// `x` is removed, no whiteout is written, and an import of what is left has the lower `x` again.
fn comes_back(o: &Oracle, lower: &str, directory: bool) {
    o.remove(ROOT, b"x", directory).unwrap();
    assert_eq!(upper(o), table(EMPTY));
    assert_eq!(o.lookup(ROOT, b"x"), Err(2));
    let again = over(Some(&upper(o)), &[table(lower)]).unwrap();
    assert_eq!(view(&again, &["x"]).stack, [(1, 2)]);
}

#[test]
fn a_removed_lower_file_stays_removed() {
    let Some(o) = oracle(Some(EMPTY), &[FILE]) else { return };
    o.remove(ROOT, b"x", false).unwrap();
    assert_eq!(upper(&o), table("record 2 character 0\nentry 0 1 2 x"));
    assert_eq!(o.lookup(ROOT, b"x"), Err(2));
    assert_eq!(o.count(ROOT), Ok((0, 1)));
}

#[test]
fn an_upper_file_over_a_lower_file_comes_back() {
    let Some(o) = oracle(Some(NEWER), &[FILE]) else { return };
    comes_back(&o, FILE, false);
}

#[test]
fn a_copied_up_file_comes_back() {
    let Some(o) = oracle(Some(EMPTY), &[FILE]) else { return };
    o.copy_up(node(&o, &["x"])).unwrap();
    comes_back(&o, FILE, false);
}

#[test]
fn an_opaque_upper_directory_over_a_lower_one_comes_back() {
    let Some(o) = oracle(Some(OPAQUE), &[DIR]) else { return };
    comes_back(&o, DIR, true);
}

#[test]
fn an_upper_directory_over_a_lower_file_comes_back() {
    let Some(o) = oracle(Some(DIR), &[FILE]) else { return };
    comes_back(&o, FILE, true);
}

#[test]
fn file_removal_of_a_lower_directory_is_accepted() {
    let Some(o) = oracle(Some(EMPTY), &[&format!("{DIR}\nrecord 3 regular 0644\nentry 1 2 3 f")]) else { return };
    assert_eq!(o.remove(ROOT, b"x", true), Err(39));
    o.remove(ROOT, b"x", false).unwrap();
    assert_eq!(upper(&o), table("record 2 character 0\nentry 0 1 2 x"));
}

#[test]
fn mkdir_over_an_upper_whiteout_is_not_opaque_so_what_was_deleted_comes_back_inside() {
    let lower = format!("{DIR}\nrecord 3 regular 0644\nentry 1 2 3 f");
    let Some(o) = oracle(Some("record 2 character 0\nentry 0 1 2 x"), &[&lower]) else { return };
    o.mkdir(ROOT, b"x", 0o755, 0o022).unwrap();
    assert_eq!(upper(&o), table(DIR));
    let again = over(Some(&upper(&o)), &[table(&lower)]).unwrap();
    assert_eq!(names(&again, node(&again, &["x"])), [".", "..", "f"]);
}

#[test]
fn mkdir_over_a_lower_whiteout_is_opaque() {
    let Some(o) = oracle(Some(EMPTY), &["record 2 character 0\nentry 0 1 2 x"]) else { return };
    o.mkdir(ROOT, b"x", 0o755, 0o022).unwrap();
    assert_eq!(upper(&o), table(OPAQUE));
}

#[test]
fn a_directory_with_whiteouts_alone_is_emptied_and_removed() {
    let upper_layer = format!("{DIR}\nrecord 3 character 0\nentry 1 2 3 f");
    let Some(o) = oracle(Some(&upper_layer), &[&format!("{DIR}\nrecord 3 regular 0644\nentry 1 2 3 f")]) else { return };
    o.remove(ROOT, b"x", true).unwrap();
    assert_eq!(upper(&o), table("record 2 character 0\nentry 0 1 2 x"));
}
