//! What a link writes, and in which order.

mod common;

use common::joins::*;
use overlay::{Kind, ROOT};

const EMPTY: Option<&str> = Some("");
/// A directory with a file, and another one.
const LOWER: &str = "record 2 directory 0711\nrecord 3 regular 0604 size 4 content 40\nrecord 4 directory 0722\n\
                     entry 0 1 2 s\nentry 1 2 3 f\nentry 2 1 4 p";

#[test]
fn of_an_upper_file_only_an_entry() {
    let mut o = join(Some("record 2 regular 0644 size 5\nentry 0 1 2 f"), &[]);
    assert_eq!(o.lookup(ROOT, b"f"), Ok(2));
    assert_eq!(o.link(2, ROOT, b"a"), Ok(3));
    left(&o, "record 2 regular 0644 size 5\nentry 0 1 2 f\nentry 1 1 2 a");
    assert_eq!(line(&o, 2), "node 2 in 1 count 2 stack 0:2 name f");
    assert_eq!(line(&o, 3), "node 3 in 1 count 1 stack 0:2 name a");
    assert_eq!(o.link(3, ROOT, b"b"), Ok(4));
    left(&o, "record 2 regular 0644 size 5\nentry 0 1 2 f\nentry 1 1 2 a\nentry 2 1 2 b");
}

/// The source's directory, the source, the parent's directory, then the entry, each in the lowest free place.
#[test]
fn source_before_parent() {
    let mut o = join(EMPTY, &[LOWER]);
    let (f, p) = (at(&mut o, "s/f"), at(&mut o, "p"));
    let made = o.link(f, p, b"x").expect("a new name");
    let records = "record 2 directory 0711\nrecord 3 regular 0604 size 4 content 40\nrecord 4 directory 0722";
    left(&o, &format!("{records}\nentry 0 1 2 s\nentry 1 2 3 f\nentry 2 1 4 p\nentry 3 4 3 x"));
    assert_eq!((stack(&mut o, "s"), stack(&mut o, "p")), (vec![(0, 2), (1, 2)], vec![(0, 4), (1, 4)]));
    assert_eq!(stack(&mut o, "s/f"), [(0, 3)]);
    assert_eq!(line(&o, made), format!("node {made} in {p} count 1 stack 0:3 name x"));
}

/// The whiteout goes first: its places are the first to be taken again.
#[test]
fn whiteout_before_source() {
    let mut o = join(Some("record 2 directory 0700\nrecord 3 character 0\nentry 0 1 2 u\nentry 1 2 3 w"), &[LOWER]);
    let (f, u, w) = (at(&mut o, "s/f"), at(&mut o, "u"), at(&mut o, "u/w"));
    assert_eq!(o.link(f, u, b"w"), Ok(w));
    let records = "record 2 directory 0700\nrecord 3 directory 0711\nrecord 4 regular 0604 size 4 content 40";
    left(&o, &format!("{records}\nentry 0 1 2 u\nentry 1 1 3 s\nentry 2 3 4 f\nentry 3 2 4 w"));
    assert_eq!(line(&o, w), format!("node {w} in {u} count 1 stack 0:4 name w"));
}

/// The whiteout's record stays with its other entry, so the source takes the next free record.
#[test]
fn over_a_shared_whiteout() {
    let mut o = join(Some("record 2 character 0\nentry 0 1 2 v\nentry 1 1 2 w"), &["record 2 fifo 0644\nentry 0 1 2 f"]);
    let v = at(&mut o, "v");
    assert_eq!(o.link(2, ROOT, b"v"), Ok(v));
    left(&o, "record 2 character 0\nrecord 3 fifo 0644\nentry 0 1 3 f\nentry 1 1 2 w\nentry 2 1 3 v");
}

#[test]
fn over_a_lower_whiteout_nothing_is_deleted() {
    let mut o = join(Some("record 2 regular 0644\nentry 0 1 2 f"), &["record 2 character 0\nentry 0 1 2 w"]);
    let w = at(&mut o, "w");
    assert_eq!(o.link(2, ROOT, b"w"), Ok(w));
    left(&o, "record 2 regular 0644\nentry 0 1 2 f\nentry 1 1 2 w");
    assert_eq!(line(&o, w), format!("node {w} in 1 count 1 stack 0:2 name w"));
}

#[test]
fn into_the_sources_own_directory() {
    let mut o = join(EMPTY, &[LOWER]);
    let (s, f) = (at(&mut o, "s"), at(&mut o, "s/f"));
    o.link(f, s, b"g").expect("a new name");
    left(&o, "record 2 directory 0711\nrecord 3 regular 0604 size 4 content 40\nentry 0 1 2 s\nentry 1 2 3 f\nentry 2 2 3 g");
}

/// The directory above both is made once, on the source's way.
#[test]
fn into_a_directory_beside_the_source() {
    let lower = "record 2 directory 0755\nrecord 3 regular 0644\nrecord 4 directory 0700\nentry 0 1 2 d\nentry 1 2 3 f\nentry 2 2 4 e";
    let mut o = join(EMPTY, &[lower]);
    let (f, e) = (at(&mut o, "d/f"), at(&mut o, "d/e"));
    o.link(f, e, b"g").expect("a new name");
    left(&o, &format!("{lower}\nentry 3 4 3 g"));
}

/// Anything but a directory has a further name; a lower source keeps its fields.
#[test]
fn of_each_kind() {
    for kind in Kind::ALL.into_iter().filter(|k| *k != Kind::Directory) {
        let device = if matches!(kind, Kind::Character | Kind::Block) { 259 } else { 0 };
        let record = format!("record 2 {} 0640 device {device} size 3 content 4\nentry 0 1 2 n", kind.word());
        let mut o = join(EMPTY, &[&record]);
        assert_eq!(o.link(2, ROOT, b"m"), Ok(3), "{kind:?}");
        left(&o, &format!("{record}\nentry 1 1 2 m"));
    }
}

/// A created name is linked, and the link's node is a source in turn.
#[test]
fn of_what_was_created() {
    let mut o = join(EMPTY, &[LOWER]);
    let p = at(&mut o, "p");
    let made = o.create(p, b"n", 0o600, 0).expect("a new name");
    let linked = o.link(made, ROOT, b"m").expect("a new name");
    assert_eq!(o.copy_up(linked), Ok(()));
    left(&o, "record 2 directory 0722\nrecord 3 regular 0600\nentry 0 1 2 p\nentry 1 2 3 n\nentry 2 1 3 m");
}
