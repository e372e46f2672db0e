//! The calls that read, and what they leave alone.

mod common;

use common::*;
use oracle::Listed;

const D: &str = "record 2 directory 0755\nrecord 3 regular 0644\nentry 0 1 2 d\nentry 1 2 3 f";

/// Document 01's whole case, as a set.
#[test]
fn listing_of_01() {
    let Some(o) = oracle(Some("record 2 regular 0644\nentry 0 1 2 k"), &[]) else { return };
    let mut listed = o.list(ROOT).unwrap();
    listed.sort();
    let entry = |inode, kind, name: &str| Listed { inode, kind, name: name.into() };
    assert_eq!(listed, [entry(1, 4, "."), entry(1, 4, ".."), entry(2, 8, "k")]);
}

/// The inode is the top record's number in its layer, that of ".." the parent's.
#[test]
fn listing_below_the_root() {
    let upper = "record 9 directory 0755\nentry 0 1 9 d";
    let Some(o) = oracle(Some(upper), &[D]) else { return };
    let mut listed = o.list(o.lookup(ROOT, b"d").unwrap()).unwrap();
    listed.sort();
    let found: Vec<_> = listed.iter().map(|l| (l.inode, l.kind, &l.name[..])).collect();
    assert_eq!(found, [(1, 4, &b".."[..]), (3, 8, b"f"), (9, 4, b".")]);
}

#[test]
fn listing_refuses_unknown_numbers_files_and_whiteouts() {
    let Some(o) = oracle(Some("record 2 regular 0644\nrecord 3 character 0\nentry 0 1 2 f\nentry 1 1 3 w"), &[]) else { return };
    assert_eq!(o.list(99), Err(2));
    assert_eq!(o.list(node(&o, &["f"])), Err(20));
    assert_eq!(o.list(node(&o, &["w"])), Err(2));
}

#[test]
fn lookup_counts_what_it_finds() {
    let Some(o) = oracle(Some(D), &[]) else { return };
    let d = node(&o, &["d"]);
    assert_eq!(view(&o, &["d"]).count, 1);
    assert_eq!(o.lookup(ROOT, b"d"), Ok(d));
    assert_eq!(view(&o, &["d"]).count, 2);
    assert_eq!(o.view(ROOT).unwrap().count, 2);
}

#[test]
fn lookup_refusals() {
    let Some(o) = oracle(Some("record 2 character 0\nentry 0 1 2 w"), &[D]) else { return };
    assert_eq!(o.lookup(ROOT, b"d/f"), Err(22));
    assert_eq!(o.lookup(99, b"d"), Err(2));
    assert_eq!(o.lookup(node(&o, &["w"]), b"x"), Err(2));
    assert_eq!(o.lookup(ROOT, b"w"), Err(2));
    assert_eq!(o.lookup(ROOT, b"absent"), Err(2));
    assert_eq!(o.lookup(ROOT, LONG), Err(2));
    assert_eq!(o.merge(LONG), Err(22), "the layer's 36 reads as absent");
}

#[test]
fn count_of_live_and_whiteout_children() {
    let Some(o) = oracle(Some("record 2 character 0\nentry 0 1 2 w\nentry 1 1 2 d"), &[D, "record 2 regular 0644\nentry 0 1 2 g"]) else {
        return;
    };
    assert_eq!(o.count(ROOT), Ok((1, 2)));
    assert_eq!(o.count(99), Err(2));
    assert_eq!(o.count(node(&o, &["g"])), Err(20));
}

/// M9 and M10, and what `forget_one` takes no notice of.
#[test]
fn forget() {
    let Some(o) = oracle(None, &[D]) else { return };
    let d = o.lookup(ROOT, b"d").unwrap();
    o.lookup(ROOT, b"d").unwrap();
    o.forget(d, 0);
    assert_eq!(o.view(d).unwrap().count, 3);
    o.forget(d, 2);
    assert_eq!(o.view(d).unwrap().count, 1);
    o.forget(d, 5);
    assert_eq!(o.view(d), None);
    o.forget(ROOT, 9);
    o.forget(99, 9);
    assert_eq!(o.view(ROOT).unwrap().count, 2);
}

#[test]
fn a_load_keeps_what_is_loaded_and_refuses_what_is_no_directory() {
    let Some(o) = oracle(None, &[D]) else { return };
    let d = node(&o, &["d"]);
    o.load(d).unwrap();
    let before = o.view(d);
    o.load(d).unwrap();
    assert_eq!(o.view(d), before);
    assert_eq!(o.load(node(&o, &["d", "f"])), Err(20));
    assert_eq!(o.load(99), Err(2));
}

#[test]
fn reading_leaves_the_upper_layer_as_it_was() {
    let before = filled("record 2 directory 0755 opaque 1\nentry 5 1 2 d", 128);
    let Some(o) = over(Some(&before), &[table(D)]) else { return };
    let d = o.lookup(ROOT, b"d").unwrap();
    o.list(d).unwrap();
    o.count(d).unwrap();
    o.forget(d, 2);
    assert_eq!(upper(&o), before);
    let Some(lower_alone) = over(None, &[before]) else { return };
    assert_eq!(lower_alone.upper(), None);
}
