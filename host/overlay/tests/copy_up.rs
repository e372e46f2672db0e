//! What a copy-up writes.

mod common;

use common::joins::*;
use overlay::{Kind, ROOT};

const EMPTY: Option<&str> = Some("");
const DEEP: &str = "record 2 directory 01750 opaque 1 size 3 content 4\nrecord 3 directory 0700\nrecord 4 regular 0640 size \
                    18446744073709551615 content 9223372036854775809\nentry 0 1 2 d\nentry 1 2 3 e\nentry 2 3 4 f";

/// Directories keep their permissions alone; the file keeps all, and its stack is the new record alone.
#[test]
fn a_file_with_its_directories() {
    let mut o = join(EMPTY, &[DEEP]);
    let f = at(&mut o, "d/e/f");
    assert_eq!(o.copy_up(f), Ok(()));
    let made = "record 2 directory 01750\nrecord 3 directory 0700\nrecord 4 regular 0640 size 18446744073709551615 content \
                9223372036854775809\nentry 0 1 2 d\nentry 1 2 3 e\nentry 2 3 4 f";
    left(&o, made);
    assert_eq!(stack(&mut o, "d"), [(0, 2), (1, 2)]);
    assert_eq!(stack(&mut o, "d/e"), [(0, 3), (1, 3)]);
    assert_eq!(stack(&mut o, "d/e/f"), [(0, 4)]);
}

/// Each kind that is no directory: kind, permissions, device, size and content.
#[test]
fn a_file_carries_its_fields() {
    for kind in Kind::ALL.into_iter().filter(|k| *k != Kind::Directory) {
        let device = if matches!(kind, Kind::Character | Kind::Block) { u64::MAX } else { 0 };
        let lines = format!("record 2 {} 06543 device {device} size 12345678901 content 18446744073709551614\nentry 0 1 2 n", kind.word());
        let mut o = join(EMPTY, &[&lines]);
        assert_eq!(o.copy_up(2), Ok(()));
        left(&o, &lines);
        assert_eq!(line(&o, 2), "node 2 in 1 count 1 stack 0:2 name n");
    }
}

/// In front of its stack, never opaque: what lies below still shows.
#[test]
fn a_directory_stands_in_front_of_its_stack() {
    let lower = [
        "record 2 directory 0711\nentry 0 1 2 d",
        "record 9 directory 0722 opaque 1 size 3\nrecord 3 regular 0644\nentry 5 1 9 d\nentry 6 9 3 k",
    ];
    let mut o = join(EMPTY, &[lower[0], lower[0], lower[1]]);
    assert_eq!(o.copy_up(2), Ok(()));
    left(&o, "record 2 directory 0711\nentry 0 1 2 d");
    assert_eq!(stack(&mut o, "d"), [(0, 2), (1, 2), (2, 2), (3, 9)]);
    assert_eq!(stack(&mut o, "d/k"), [(3, 3)]);
    afresh(&o);
}

/// An opaque lower directory still hides what is below it.
#[test]
fn an_opaque_directory_goes_on_hiding() {
    let mut o = join(EMPTY, &[DEEP, "record 2 directory 0755\nrecord 3 regular 0644\nentry 0 1 2 d\nentry 1 2 3 hidden"]);
    assert_eq!(o.copy_up(2), Ok(()));
    left(&o, "record 2 directory 01750\nentry 0 1 2 d");
    let names: Vec<_> = o.listing(2).expect("a directory").into_iter().map(|d| d.name).collect();
    assert_eq!(names, [&b"."[..], b"..", b"e"]);
    afresh(&o);
}

#[test]
fn nothing_is_done_where_the_top_is_upper() {
    let mut o = join(Some("record 2 directory 0700\nentry 0 1 2 d"), &[DEEP]);
    let f = at(&mut o, "d/e/f");
    assert_eq!(o.copy_up(f), Ok(()));
    let before = o.clone();
    for path in ["d", "d/e", "d/e/f"] {
        let node = at(&mut o, path);
        assert_eq!(o.copy_up(node), Ok(()), "{path}");
    }
    assert_eq!(o.copy_up(ROOT), Ok(()));
    assert_eq!((o.upper(), o.state()), (before.upper(), before.state()));
}

/// The upper directory on the path keeps its record; each new item takes the lowest free place.
#[test]
fn a_path_that_is_partly_upper() {
    let mut o = join(Some("record 3 directory 0700 opaque 0 size 6\nentry 1 1 3 d"), &[DEEP]);
    let f = at(&mut o, "d/e/f");
    assert_eq!(o.copy_up(f), Ok(()));
    let size = "size 18446744073709551615 content 9223372036854775809";
    let records = format!("record 2 directory 0700\nrecord 3 directory 0700 size 6\nrecord 4 regular 0640 {size}");
    left(&o, &format!("{records}\nentry 0 3 2 e\nentry 1 1 3 d\nentry 2 2 4 f"));
}

/// Two lower names of one record part: the other one stays where it is.
#[test]
fn a_lower_hard_link_parts() {
    let mut o = join(EMPTY, &["record 2 regular 0644 size 5\nentry 0 1 2 a\nentry 1 1 2 b"]);
    assert_eq!(o.copy_up(3), Ok(()));
    left(&o, "record 2 regular 0644 size 5\nentry 0 1 2 b");
    assert_eq!((stack(&mut o, "a"), stack(&mut o, "b")), (vec![(1, 2)], vec![(0, 2)]));
}

/// A directory that was forgotten stays for its children's sake, and so its path is still known.
#[test]
fn below_a_forgotten_directory() {
    let mut o = join(EMPTY, &[DEEP]);
    let (d, e) = (at(&mut o, "d"), at(&mut o, "d/e"));
    o.forget(d, 1);
    assert_eq!(o.node(d).map(|n| n.count), Ok(0));
    assert_eq!(o.copy_up(e), Ok(()));
    left(&o, "record 2 directory 01750\nrecord 3 directory 0700\nentry 0 1 2 d\nentry 1 2 3 e");
    assert_eq!(line(&o, d), format!("node {d} in 1 count 0 stack 0:2 1:2 loaded name d"));
}

/// Counts and numbers stay, and nothing is loaded.
#[test]
fn the_nodes_stay_but_for_their_stacks() {
    let mut o = join(EMPTY, &[DEEP]);
    let f = at(&mut o, "d/e/f");
    assert_eq!(o.lookup(ROOT, b"d"), Ok(2));
    let before = o.nodes();
    assert_eq!(o.copy_up(f), Ok(()));
    let mut after = o.nodes();
    assert_ne!(after, before);
    after.iter_mut().zip(&before).for_each(|(a, b)| a.stack = b.stack.clone());
    assert_eq!(after, before);
}
