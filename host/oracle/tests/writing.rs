//! The calls that write: what document 01 and the Rust agree on, and that the test layer keeps it.

mod common;

use common::*;
use overlay::Kind;

const F: &str = "record 2 regular 0644\nentry 0 1 2 f";
const W: &str = "record 2 character 0\nentry 0 1 2 a";
const DEEP: &str = "record 2 directory 01750 opaque 1 size 3 content 4\nrecord 3 directory 0700\nrecord 4 regular 0640 size 18446744073709551615 \
                    content 9223372036854775809\nrecord 5 symlink 0777 content 18446744073709551614\nentry 0 1 2 d\nentry 1 2 3 e\nentry 2 3 4 f\n\
                    entry 3 3 5 s";

/// Nodes down to `d/e`, loaded.
fn deep() -> Option<oracle::Oracle> {
    let o = oracle(Some(EMPTY), &[DEEP])?;
    o.load(node(&o, &["d"])).unwrap();
    o.load(node(&o, &["d", "e"])).unwrap();
    Some(o)
}

/// The run of document 01.
#[test]
fn run_of_01_creation_over_an_upper_whiteout() {
    let Some(o) = oracle(Some(W), &["record 2 regular 0644\nentry 0 1 2 a"]) else { return };
    let a = node(&o, &["a"]);
    assert_eq!(o.create(ROOT, b"a", 0o644, 0), Ok(a));
    let made = o.view(a).unwrap();
    assert_eq!((made.stack, made.whiteout, made.count), (vec![(0, 2)], false, 1));
    assert_eq!(upper(&o), table("record 2 regular 0644\nentry 0 1 2 a"));
}

#[test]
fn creation_over_a_lower_whiteout_deletes_nothing() {
    let Some(o) = oracle(Some(EMPTY), &[W]) else { return };
    let a = node(&o, &["a"]);
    assert_eq!(o.symlink(ROOT, b"a", 7), Ok(a));
    assert_eq!(o.view(a).unwrap().stack, [(0, 2)]);
    assert_eq!(upper(&o), table("record 2 symlink 0777 content 7\nentry 0 1 2 a"));
}

#[test]
fn creation_over_a_shared_whiteout_leaves_its_record() {
    let Some(o) = oracle(Some("record 2 character 0\nentry 0 1 2 a\nentry 1 1 2 b"), &[]) else { return };
    o.create(ROOT, b"a", 0o600, 0).unwrap();
    assert_eq!(upper(&o), table("record 2 character 0\nrecord 3 regular 0600\nentry 0 1 3 a\nentry 1 1 2 b"));
    o.create(ROOT, b"b", 0o600, 0).unwrap();
    assert_eq!(upper(&o), table("record 2 regular 0600\nrecord 3 regular 0600\nentry 0 1 3 a\nentry 1 1 2 b"));
}

#[test]
fn create_takes_the_umask_away() {
    let Some(o) = oracle(Some(EMPTY), &[]) else { return };
    let made = o.create(ROOT, b"n", 0o6777, 0o4022).unwrap();
    assert_eq!(upper(&o), table("record 2 regular 02755\nentry 0 1 2 n"));
    let n = o.view(made).unwrap();
    assert_eq!((n.stack, n.count, n.name), (vec![(0, 2)], 1, b"n".to_vec()));
}

#[test]
fn mknod_of_each_kind() {
    for kind in [Kind::Fifo, Kind::Character, Kind::Block, Kind::Regular, Kind::Socket] {
        let Some(o) = oracle(Some(EMPTY), &[]) else { return };
        o.mknod(ROOT, b"n", kind.number(), 0o666, 0o022, 4_294_967_295).unwrap();
        let device = if matches!(kind, Kind::Character | Kind::Block) { 4_294_967_295u32 } else { 0 };
        assert_eq!(upper(&o), table(&format!("record 2 {} 0644 device {device}\nentry 0 1 2 n", kind.word())));
    }
}

#[test]
fn mknod_of_other_kinds_gives_22() {
    let Some(o) = oracle(Some(EMPTY), &[]) else { return };
    for kind in [0, Kind::Directory.number(), Kind::Symlink.number(), 15] {
        assert_eq!(o.mknod(ROOT, b"n", kind, 0o644, 0, 0), Err(22), "{kind}");
    }
    assert_eq!(o.mknod(ROOT, b"n", 16 + Kind::Regular.number(), 0o644, 0, 0), Err(22));
    assert_eq!(o.mknod(ROOT, b"n", Kind::Regular.number(), 0o10000, 0, 0), Err(22));
    assert_eq!(o.mknod(ROOT, b"n", Kind::Block.number(), 0o644, 0, 1 << 32), Err(22));
    assert_eq!(upper(&o), table(EMPTY));
}

/// Missing directories keep their permissions and lose the rest; a file keeps all 64 bits of size and content.
#[test]
fn copy_up_of_a_file_makes_its_directories() {
    let Some(o) = deep() else { return };
    o.copy_up(node(&o, &["d", "e", "f"])).unwrap();
    let made = "record 2 directory 01750\nrecord 3 directory 0700\nrecord 4 regular 0640 size 18446744073709551615 content \
                9223372036854775809\nentry 0 1 2 d\nentry 1 2 3 e\nentry 2 3 4 f";
    assert_eq!(upper(&o), table(made));
    assert_eq!(view(&o, &["d"]).stack, [(0, 2), (1, 2)]);
    assert_eq!(view(&o, &["d", "e"]).stack, [(0, 3), (1, 3)]);
    assert_eq!(view(&o, &["d", "e", "f"]).stack, [(0, 4)]);
    let before = upper(&o);
    o.copy_up(node(&o, &["d", "e", "f"])).unwrap();
    assert_eq!(upper(&o), before);
}

#[test]
fn copy_up_of_a_symlink() {
    let Some(o) = deep() else { return };
    o.copy_up(node(&o, &["d", "e", "s"])).unwrap();
    assert_eq!(upper(&o).record(4), table(DEEP).record(5));
    assert_eq!(view(&o, &["d", "e", "s"]).stack, [(0, 4)]);
}

#[test]
fn copy_up_of_a_directory() {
    let Some(o) = deep() else { return };
    o.copy_up(node(&o, &["d", "e"])).unwrap();
    assert_eq!(upper(&o), table("record 2 directory 01750\nrecord 3 directory 0700\nentry 0 1 2 d\nentry 1 2 3 e"));
    let Some(again) = over(Some(&upper(&o)), &[table(DEEP)]) else { return };
    let d = again.lookup(ROOT, b"d").unwrap();
    assert_eq!(names(&again, again.lookup(d, b"e").unwrap()), [".", "..", "f", "s"]);
}

#[test]
fn copy_up_refusals() {
    let Some(o) = oracle(Some(W), &[F]) else { return };
    assert_eq!(o.copy_up(99), Err(2));
    assert_eq!(o.copy_up(node(&o, &["a"])), Err(2));
    let Some(o) = oracle(None, &[&format!("{F}\nrecord 3 character 0\nentry 1 1 3 w")]) else { return };
    assert_eq!(o.copy_up(node(&o, &["f"])), Err(30));
    assert_eq!(o.copy_up(node(&o, &["w"])), Err(30));
}

/// The source is copied up, and both names stand for one record.
#[test]
fn link_of_a_lower_file() {
    let Some(o) = oracle(Some("record 2 directory 0755\nentry 0 1 2 d"), &[F]) else { return };
    let d = o.lookup(ROOT, b"d").unwrap();
    let made = o.link(node(&o, &["f"]), d, b"g").unwrap();
    assert_eq!(o.view(made).unwrap().stack, view(&o, &["f"]).stack);
    assert_eq!(upper(&o), table("record 2 directory 0755\nrecord 3 regular 0644\nentry 0 1 2 d\nentry 1 1 3 f\nentry 2 2 3 g"));
}

#[test]
fn link_over_an_upper_whiteout_keeps_the_node() {
    let Some(o) = oracle(Some(W), &[F]) else { return };
    let a = node(&o, &["a"]);
    assert_eq!(o.link(node(&o, &["f"]), ROOT, b"a"), Ok(a));
    assert_eq!((o.view(a).unwrap().stack, o.view(a).unwrap().whiteout), (vec![(0, 3)], false));
    assert_eq!(upper(&o), table("record 3 regular 0644\nentry 0 1 3 a\nentry 1 1 3 f"));
}

/// 30, then 2, then 1, then 17: the order of the Rust's tests.
#[test]
fn refusals_in_their_order() {
    let lower = "record 2 regular 0644\nrecord 3 character 0\nrecord 4 directory 0755\nentry 0 1 2 f\nentry 1 1 3 w\nentry 2 1 4 d";
    let Some(o) = oracle(None, &[lower]) else { return };
    let [w, d] = ["w", "d"].map(|name| node(&o, &[name]));
    for parent in [ROOT, w] {
        assert_eq!(o.create(parent, b"f", 0o644, 0), Err(30));
        assert_eq!(o.mknod(parent, b"f", 8, 0o644, 0, 0), Err(30));
        assert_eq!(o.symlink(parent, b"f", 0), Err(30));
        assert_eq!(o.link(d, parent, b"f"), Err(30));
    }
    let Some(o) = oracle(Some(EMPTY), &[lower]) else { return };
    let [f, w, d] = ["f", "w", "d"].map(|name| node(&o, &[name]));
    for parent in [99, w] {
        assert_eq!(o.create(parent, b"f", 0o644, 0), Err(2));
        assert_eq!(o.mknod(parent, b"f", 8, 0o644, 0, 0), Err(2));
        assert_eq!(o.symlink(parent, b"f", 0), Err(2));
        assert_eq!(o.link(d, parent, b"f"), Err(2));
        assert_eq!(o.link(parent, ROOT, b"f"), Err(2));
    }
    assert_eq!(o.link(d, ROOT, b"f"), Err(1));
    assert_eq!(o.create(ROOT, b"f", 0o644, 0), Err(17));
    assert_eq!(o.mknod(ROOT, b"d", 8, 0o644, 0, 0), Err(17));
    assert_eq!(o.symlink(ROOT, b"f", 0), Err(17));
    assert_eq!(upper(&o), table(EMPTY));
    assert_eq!(o.link(f, ROOT, b"d"), Err(17));
}

#[test]
fn a_new_name_of_over_28_bytes_gives_36() {
    let Some(o) = oracle(Some(F), &[]) else { return };
    assert_eq!(o.create(ROOT, LONG, 0o644, 0), Err(36));
    assert_eq!(o.mknod(ROOT, LONG, 8, 0o644, 0, 0), Err(36));
    assert_eq!(o.symlink(ROOT, LONG, 0), Err(36));
    assert_eq!(o.link(node(&o, &["f"]), ROOT, LONG), Err(36));
    assert_eq!(upper(&o), table(F));
    o.create(ROOT, &LONG[..28], 0o644, 0).unwrap();
    assert_eq!(upper(&o).entry(1).unwrap().name, &LONG[..28]);
}

/// 128 records give 28, and so do 128 entries where a record is still free.
#[test]
fn no_space() {
    let Some(o) = over(Some(&filled("", 128)), &[]) else { return };
    assert_eq!(o.create(ROOT, b"n", 0o644, 0), Err(28));
    assert_eq!(o.link(node(&o, &["f2"]), ROOT, b"n").map(|_| upper(&o).entries().count()), Ok(128));
    assert_eq!(o.link(node(&o, &["f2"]), ROOT, b"m"), Err(28));
    let shared = "record 2 regular 0644\nentry 0 1 2 a\nentry 1 1 2 b\nentry 2 1 2 c";
    let Some(o) = over(Some(&filled(shared, 127)), &[]) else { return };
    assert_eq!(upper(&o).entries().count(), 128);
    assert_eq!(o.symlink(ROOT, b"n", 0), Err(28));
    assert_eq!(o.mknod(ROOT, b"n", 1, 0o644, 0, 0), Err(28));
}

#[test]
fn new_items_take_the_lowest_free_places() {
    let Some(o) = oracle(Some("record 3 regular 0644\nentry 1 1 3 c"), &[]) else { return };
    for name in [b"x", b"y"] {
        o.create(ROOT, name, 0o600, 0).unwrap();
    }
    let both = "record 2 regular 0600\nrecord 3 regular 0644\nrecord 4 regular 0600\nentry 0 1 2 x\nentry 1 1 3 c\nentry 2 1 4 y";
    assert_eq!(upper(&o), table(both));
}
