//! What mknod, create and symlink write: document 01's run and the other cases of "What a creation and a copy-up write".

mod common;

use common::joins::*;
use overlay::{Count, Kind, ROOT};

const EMPTY: Option<&str> = Some("");
const WHITEOUT_A: &str = "record 2 character 0\nentry 0 1 2 a";
const FILE_A: &str = "record 2 regular 0644 size 5 content 7\nentry 0 1 2 a";

/// Upper whiteout "a", record 2, over a lower file "a".
#[test]
fn the_run_of_01() {
    let mut o = join(Some(WHITEOUT_A), &[FILE_A]);
    assert_eq!(line(&o, 2), "node 2 in 1 count 1 stack 0:2 whiteout name a");
    assert_eq!(o.create(ROOT, b"a", 0o644, 0), Ok(2));
    assert_eq!(line(&o, 2), "node 2 in 1 count 1 stack 0:2 name a");
    left(&o, "record 2 regular 0644\nentry 0 1 2 a");
    assert_eq!((o.next_number(), o.count(ROOT)), (3, Ok(Count { live: 1, whiteouts: 0 })));
    assert_eq!(o.lookup(ROOT, b"a"), Ok(2));
}

/// Nothing of the whiteout's record stays, whatever it held.
#[test]
fn a_whiteout_goes_with_all_its_fields() {
    let mut o = join(Some("record 2 character 0777 size 8 content 9\nentry 0 1 2 a"), &[]);
    assert_eq!(o.symlink(ROOT, b"a", 4), Ok(2));
    left(&o, "record 2 symlink 0777 content 4\nentry 0 1 2 a");
}

#[test]
fn a_lower_whiteout_is_left_alone() {
    let mut o = join(EMPTY, &[WHITEOUT_A, FILE_A]);
    assert_eq!(o.create(ROOT, b"a", 0o600, 0), Ok(2));
    assert_eq!(line(&o, 2), "node 2 in 1 count 1 stack 0:2 name a");
    left(&o, "record 2 regular 0600\nentry 0 1 2 a");
    assert_eq!(o.lower(), [table(WHITEOUT_A), table(FILE_A)]);
}

#[test]
fn a_whiteout_over_a_directory_gives_way_to_a_file() {
    let mut o = join(Some(WHITEOUT_A), &["record 2 directory 0755\nrecord 3 regular 0644\nentry 0 1 2 a\nentry 1 2 3 k"]);
    assert_eq!(o.mknod(ROOT, b"a", Kind::Fifo.number(), 0o644, 0, 0), Ok(2));
    assert_eq!(line(&o, 2), "node 2 in 1 count 1 stack 0:2 name a");
    left(&o, "record 2 fifo 0644\nentry 0 1 2 a");
}

/// Whiteouts that share a record: it stays until its last entry goes.
#[test]
fn a_shared_whiteout_stays_until_its_last_entry() {
    let mut o = join(Some("record 2 character 0\nentry 0 1 2 a\nentry 1 1 2 b"), &[]);
    assert_eq!(o.create(ROOT, b"a", 0o600, 0), Ok(2));
    left(&o, "record 2 character 0\nrecord 3 regular 0600\nentry 0 1 3 a\nentry 1 1 2 b");
    assert_eq!(o.create(ROOT, b"b", 0o640, 0), Ok(3));
    left(&o, "record 2 regular 0640\nrecord 3 regular 0600\nentry 0 1 3 a\nentry 1 1 2 b");
}

/// Entries of other directories count too.
#[test]
fn a_whiteout_shared_between_directories_stays() {
    let mut o = join(Some("record 2 directory 0755\nrecord 3 character 0\nentry 0 1 2 d\nentry 1 2 3 a\nentry 2 1 3 a"), &[]);
    let (d, inner) = (at(&mut o, "d"), at(&mut o, "d/a"));
    assert_eq!(o.create(d, b"a", 0o600, 0), Ok(inner));
    left(&o, "record 2 directory 0755\nrecord 3 character 0\nrecord 4 regular 0600\nentry 0 1 2 d\nentry 1 2 4 a\nentry 2 1 3 a");
}

#[test]
fn permissions_lose_the_umasks_bits() {
    for (permissions, umask, kept) in
        [(0o6777, 0o4022, 0o2755), (0o7777, 0, 0o7777), (0o7777, 0o7777, 0), (0, 0o7777, 0), (0o1644, 0o1000, 0o644)]
    {
        let mut o = join(EMPTY, &[]);
        assert_eq!(o.create(ROOT, b"c", permissions, umask), Ok(2));
        assert_eq!(o.mknod(ROOT, b"m", Kind::Socket.number(), permissions, umask, 0), Ok(3));
        left(&o, &format!("record 2 regular 0{kept:o}\nrecord 3 socket 0{kept:o}\nentry 0 1 2 c\nentry 1 1 3 m"));
    }
}

/// The caller's device number, all 64 bits, stays with a device alone.
#[test]
fn mknod_of_each_kind() {
    for kind in [Kind::Fifo, Kind::Character, Kind::Block, Kind::Regular, Kind::Socket] {
        let mut o = join(EMPTY, &[]);
        assert_eq!(o.mknod(ROOT, b"n", kind.number(), 0o666, 0o022, u64::MAX), Ok(2));
        let device = if matches!(kind, Kind::Character | Kind::Block) { u64::MAX } else { 0 };
        left(&o, &format!("record 2 {} 0644 device {device}\nentry 0 1 2 n", kind.word()));
    }
    let mut o = join(EMPTY, &[]);
    assert_eq!(o.mknod(ROOT, b"n", Kind::Block.number(), 0, 0, 0), Ok(2));
    left(&o, "record 2 block 0\nentry 0 1 2 n");
}

#[test]
fn a_symlink_has_permissions_511_and_its_content() {
    let mut o = join(EMPTY, &[]);
    assert_eq!(o.symlink(ROOT, b"s", u64::MAX), Ok(2));
    left(&o, "record 2 symlink 0777 content 18446744073709551615\nentry 0 1 2 s");
}

/// Numbers rise whatever the names' order; the nodes stand in byte order.
#[test]
fn a_new_node_stands_in_its_order() {
    let mut o = join(Some("record 2 regular 0644\nentry 0 1 2 m"), &[]);
    assert_eq!(o.create(ROOT, b"z", 0, 0), Ok(3));
    assert_eq!(o.create(ROOT, b"a", 0, 0), Ok(4));
    assert_eq!(o.create(ROOT, b"ma", 0, 0), Ok(5));
    assert_eq!(o.symlink(ROOT, b"\xff\xfe", 1), Ok(6));
    let lines: Vec<String> = o.nodes()[1..].iter().map(|n| n.to_string()).collect();
    let expected = [
        "node 4 in 1 count 1 stack 0:4 name a",
        "node 2 in 1 count 1 stack 0:2 name m",
        "node 5 in 1 count 1 stack 0:5 name ma",
        "node 3 in 1 count 1 stack 0:3 name z",
        "node 6 in 1 count 1 stack 0:6 name \\ff\\fe",
    ];
    assert_eq!(lines, expected);
    assert_eq!(o.next_number(), 7);
    afresh(&o);
}

/// Records and entries each by themselves.
#[test]
fn new_items_take_the_lowest_free_places() {
    let mut o = join(Some("record 3 regular 0644\nrecord 5 regular 0644\nentry 1 1 3 c\nentry 3 1 5 e"), &[]);
    for name in [b"x", b"y", b"z"] {
        o.create(ROOT, name, 0o600, 0).expect("a new name");
    }
    let records = "record 2 regular 0600\nrecord 3 regular 0644\nrecord 4 regular 0600\nrecord 5 regular 0644\nrecord 6 regular 0600";
    left(&o, &format!("{records}\nentry 0 1 2 x\nentry 1 1 3 c\nentry 2 1 4 y\nentry 3 1 5 e\nentry 4 1 6 z"));
}

/// Same permissions, never opaque, size and content 0, in front of the stack; what a lower layer has still shows.
#[test]
fn missing_directories_are_made_from_the_root_down() {
    let layer = "record 2 directory 01750 opaque 1 size 3 content 4\nrecord 3 directory 0700 opaque 1\nrecord 4 regular 0640\n\
                 entry 0 1 2 d\nentry 1 2 3 e\nentry 2 3 4 f";
    let mut o = join(EMPTY, &[layer, "record 2 directory 0777\nrecord 3 regular 0644\nentry 0 1 2 d\nentry 1 2 3 hidden"]);
    let e = at(&mut o, "d/e");
    let made = o.create(e, b"n", 0o600, 0).expect("a new name");
    left(&o, "record 2 directory 01750\nrecord 3 directory 0700\nrecord 4 regular 0600\nentry 0 1 2 d\nentry 1 2 3 e\nentry 2 3 4 n");
    assert_eq!((stack(&mut o, "d"), stack(&mut o, "d/e")), (vec![(0, 2), (1, 2)], vec![(0, 3), (1, 3)]));
    assert_eq!(line(&o, made), format!("node {made} in {e} count 1 stack 0:4 name n"));
    let names: Vec<_> = o.listing(e).expect("a directory").into_iter().map(|d| d.name).collect();
    assert_eq!(names, [&b"."[..], b"..", b"f", b"n"]);
}

/// A stack of three lower directories gets a fourth in front; a directory that is upper already is not made again.
#[test]
fn only_what_is_missing_is_made() {
    let lower = "record 2 directory 0711\nrecord 3 directory 0722\nentry 0 1 2 d\nentry 1 2 3 e";
    let mut o = join(Some("record 7 directory 0700 size 1\nentry 9 1 7 d"), &[lower, lower, lower]);
    let e = at(&mut o, "d/e");
    o.symlink(e, b"s", 1).expect("a new name");
    left(
        &o,
        "record 7 directory 0700 size 1\nrecord 2 directory 0722\nrecord 3 symlink 0777 content 1\nentry 9 1 7 d\nentry 0 7 2 e\nentry 1 2 3 s",
    );
    assert_eq!(stack(&mut o, "d"), [(0, 7), (1, 2), (2, 2), (3, 2)]);
    assert_eq!(stack(&mut o, "d/e"), [(0, 2), (1, 3), (2, 3), (3, 3)]);
}

/// The whiteout is a lower one, so its directory is made, and nothing is deleted.
#[test]
fn over_a_whiteout_in_a_lower_directory() {
    let mut o = join(EMPTY, &["record 2 directory 0750\nrecord 3 character 0\nentry 0 1 2 d\nentry 1 2 3 w"]);
    let (d, w) = (at(&mut o, "d"), at(&mut o, "d/w"));
    assert_eq!(o.create(d, b"w", 0o644, 0), Ok(w));
    left(&o, "record 2 directory 0750\nrecord 3 regular 0644\nentry 0 1 2 d\nentry 1 2 3 w");
    assert_eq!(line(&o, w), format!("node {w} in {d} count 1 stack 0:3 name w"));
}

/// A directory that reaches the root in 16 steps, all of them lower.
#[test]
fn the_longest_path_is_made() {
    let chain: String = (2..=17).map(|i| format!("record {i} directory 07{i:02o}\nentry {} {} {i} d\n", i - 2, i - 1)).collect();
    let mut o = join(EMPTY, &[&chain]);
    let deepest = at(&mut o, &["d"; 16].join("/"));
    o.create(deepest, b"n", 0o644, 0).expect("a new name");
    left(&o, &format!("{chain}record 18 regular 0644\nentry 16 17 18 n"));
}

#[test]
fn a_name_of_28_bytes_is_made() {
    let mut o = join(EMPTY, &[]);
    assert_eq!(o.create(ROOT, &LONG[..28], 0o644, 0), Ok(2));
    assert_eq!(o.upper().and_then(|t| t.entry(0)).map(|e| e.name), Some(LONG[..28].to_vec()));
    assert_eq!(o.lookup(ROOT, &LONG[..28]), Ok(2));
    afresh(&o);
}

/// A creation loads its parent, and needs no node for a name that has one.
#[test]
fn a_creation_loads_its_parent() {
    let mut o = join(EMPTY, &["record 2 directory 0755\nrecord 3 regular 0644\nentry 0 1 2 d\nentry 1 2 3 k"]);
    assert_eq!(o.create(2, b"n", 0o644, 0), Ok(4));
    let lines: Vec<String> = o.nodes()[1..].iter().map(|n| n.to_string()).collect();
    let expected =
        ["node 2 in 1 count 1 stack 0:2 1:2 loaded name d", "node 3 in 2 count 1 stack 1:3 name k", "node 4 in 2 count 1 stack 0:3 name n"];
    assert_eq!(lines, expected);
    afresh(&o);
}
