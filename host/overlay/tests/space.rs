//! 28: decided on what the upper layer would hold after the whole call, so that freed places count as free.

mod common;

use common::joins::*;
use overlay::{Errno, Overlay, ROOT, Table};

const LOWER: &str = "record 2 directory 0711\nrecord 3 regular 0604\nrecord 4 directory 0722\nentry 0 1 2 s\nentry 1 2 3 f\nentry 2 1 4 p";

/// How many records and entries the upper layer has.
fn used(o: &Overlay) -> (usize, usize) {
    let t = o.upper().expect("an upper layer");
    (t.records().count(), t.entries().count())
}

/// A file's number in the root.
fn file(o: &mut Overlay, place: usize) -> u64 {
    at(o, &format!("f{place}"))
}

#[test]
fn of_128_records_a_creation_needs_one_more() {
    let mut o = over(Some(filled("", 128)), &[]);
    refused(&mut o, 28, |o| o.create(ROOT, b"n", 0o644, 0));
    refused(&mut o, 28, |o| o.mknod(ROOT, b"n", 1, 0o644, 0, 0));
    refused(&mut o, 28, |o| o.symlink(ROOT, b"n", 0));
    let f = file(&mut o, 2);
    o.link(f, ROOT, b"n").expect("a link needs an entry alone");
    assert_eq!(used(&o), (128, 128));
    refused(&mut o, 28, |o| o.link(f, ROOT, b"m"));
}

#[test]
fn of_128_entries_any_call_needs_one_more() {
    let mut o =
        over(Some(filled("record 2 regular 0644\nentry 0 1 2 a\nentry 1 1 2 b\nentry 2 1 2 c", 127)), &["record 2 fifo 0\nentry 0 1 2 z"]);
    assert_eq!(used(&o), (127, 128));
    refused(&mut o, 28, |o| o.create(ROOT, b"n", 0o644, 0));
    refused(&mut o, 28, |o| o.mknod(ROOT, b"n", 1, 0o644, 0, 0));
    refused(&mut o, 28, |o| o.symlink(ROOT, b"n", 0));
    let (a, z) = (at(&mut o, "a"), at(&mut o, "z"));
    refused(&mut o, 28, |o| o.link(a, ROOT, b"n"));
    refused(&mut o, 28, |o| o.copy_up(z));
    assert_eq!(o.copy_up(a), Ok(()));
}

/// The whiteout's own places are enough for a creation.
#[test]
fn a_whiteouts_places_are_taken_again() {
    let upper = filled("record 2 character 0\nentry 0 1 2 a", 128);
    let mut o = over(Some(upper), &["record 2 regular 0644\nentry 0 1 2 a"]);
    let a = at(&mut o, "a");
    assert_eq!(o.create(ROOT, b"a", 0o600, 0), Ok(a));
    assert_eq!(o.upper(), Some(&filled("record 2 regular 0600\nentry 0 1 2 a", 128)));
    afresh(&o);
}

/// A shared whiteout frees its entry alone.
#[test]
fn a_shared_whiteout_frees_an_entry_alone() {
    let mut o = over(Some(filled("record 2 character 0\nentry 0 1 2 a\nentry 1 1 2 b", 128)), &["record 2 regular 0644\nentry 0 1 2 a"]);
    assert_eq!(used(&o), (128, 128));
    refused(&mut o, 28, |o| o.create(ROOT, b"a", 0o644, 0));
    let (f, a) = (file(&mut o, 3), at(&mut o, "a"));
    assert_eq!(o.link(f, ROOT, b"a"), Ok(a));
    afresh(&o);
    let mut o = over(Some(filled("record 2 character 0\nentry 0 1 2 a\nentry 1 1 2 b\nentry 2 1 2 c", 127)), &[]);
    assert_eq!(used(&o), (127, 128));
    assert!(o.create(ROOT, b"a", 0o644, 0).is_ok());
    assert_eq!(used(&o), (128, 128));
    afresh(&o);
}

/// A link deletes the whiteout before it copies up, where the Rust would need a 129th record.
#[test]
fn a_link_over_a_whiteout_in_a_full_layer() {
    let lines = |first: &str| filled(first, 128);
    let mut o = over(Some(lines("record 2 character 0\nentry 0 1 2 a")), &["record 2 regular 0640\nentry 0 1 2 s"]);
    let (s, a) = (at(&mut o, "s"), at(&mut o, "a"));
    assert_eq!(o.link(s, ROOT, b"a"), Ok(a));
    assert_eq!(o.upper(), Some(&lines("record 2 regular 0640\nentry 0 1 2 s\nentry 127 1 2 a")));
    afresh(&o);
}

/// Loads every directory, so that a refused call has nothing left to load.
fn load_all(o: &mut Overlay) {
    let before = o.nodes();
    before.iter().for_each(|n| _ = o.count(n.number.into()));
    if o.nodes() != before {
        load_all(o);
    }
}

/// What a call on these upper layers answers: the one where it just fits, and the one where it does not.
fn at_the_edge(fits: Table, full: Table, lower: &str, call: impl Fn(&mut Overlay) -> Result<(), Errno>) -> Overlay {
    let mut o = over(Some(full), &[lower]);
    load_all(&mut o);
    refused(&mut o, 28, &call);
    let mut o = over(Some(fits), &[lower]);
    assert_eq!(call(&mut o), Ok(()));
    afresh(&o);
    o
}

#[test]
fn made_directories_count() {
    let creation = |o: &mut Overlay| {
        let p = at(o, "p");
        o.create(p, b"n", 0o644, 0).map(|_| ())
    };
    assert_eq!(used(&at_the_edge(filled("", 126), filled("", 127), LOWER, creation)), (128, 127));
    let file = |o: &mut Overlay| {
        let f = at(o, "s/f");
        o.copy_up(f)
    };
    assert_eq!(used(&at_the_edge(filled("", 126), filled("", 127), LOWER, file)), (128, 127));
    let directory = |o: &mut Overlay| {
        let p = at(o, "p");
        o.copy_up(p)
    };
    assert_eq!(used(&at_the_edge(filled("", 127), filled("", 128), LOWER, directory)), (128, 127));
}

/// Both paths count: the source's directory and the source, the parent's directory, and an entry for each and one more.
#[test]
fn a_link_counts_both_paths() {
    let link = |o: &mut Overlay| {
        let (f, p) = (at(o, "s/f"), at(o, "p"));
        o.link(f, p, b"n").map(|_| ())
    };
    assert_eq!(used(&at_the_edge(filled("", 125), filled("", 126), LOWER, link)), (128, 128));
    let shared = "record 2 regular 0644\nentry 0 1 2 a\nentry 1 1 2 b";
    assert_eq!(used(&at_the_edge(filled(shared, 124), filled(shared, 125), LOWER, link)), (127, 128));
}

/// A directory on both paths counts once.
#[test]
fn a_link_counts_a_shared_directory_once() {
    let lower = "record 2 directory 0711\nrecord 3 regular 0604\nrecord 4 directory 0722\nrecord 5 directory 0755\n\
                 entry 0 1 2 s\nentry 1 2 3 f\nentry 2 1 4 p\nentry 3 2 5 e";
    let beside = |o: &mut Overlay| {
        let (f, s) = (at(o, "s/f"), at(o, "s"));
        o.link(f, s, b"n").map(|_| ())
    };
    assert_eq!(used(&at_the_edge(filled("", 126), filled("", 127), lower, beside)), (128, 128));
    let below = |o: &mut Overlay| {
        let (f, e) = (at(o, "s/f"), at(o, "s/e"));
        o.link(f, e, b"n").map(|_| ())
    };
    assert_eq!(used(&at_the_edge(filled("", 125), filled("", 126), lower, below)), (128, 128));
}
