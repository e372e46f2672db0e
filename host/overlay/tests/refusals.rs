//! Each refusal of each call that writes, in document 01's order: every input fails its test and, wherever both can fail, the next one too.
//! A refusal leaves upper layer and state as they were, but for a load.

mod common;

use common::joins::*;
use overlay::{Errno, Kind, Overlay, ROOT};

type Creation = fn(&mut Overlay, u64, &[u8]) -> Result<u64, Errno>;

/// The three creations with good arguments.
const CREATIONS: [Creation; 3] =
    [|o, p, name| o.mknod(p, name, 1, 0o644, 0, 0), |o, p, name| o.create(p, name, 0o644, 0), |o, p, name| o.symlink(p, name, 7)];

const MALFORMED: [&[u8]; 7] = [b"", b".", b"..", b"/", b"a/b", b"\0", b"a\0"];
/// Numbers that no node has; the last would be the root's in 32 bits.
const UNKNOWN: [u64; 4] = [0, 99, u64::MAX, (1 << 32) + 1];

/// The nodes of `named`.
const D: u64 = 2;
const F: u64 = 3;
const W: u64 = 4;

/// A directory `d` with a file `k`, which is not loaded, a file `f` and a whiteout `w`, all of them lower.
fn named(upper: Option<&str>) -> Overlay {
    let lower = "record 2 directory 0750\nrecord 3 regular 0644\nrecord 4 character 0\nrecord 5 fifo 0600\n\
                 entry 0 1 2 d\nentry 1 1 3 f\nentry 2 1 4 w\nentry 3 2 5 k";
    join(upper, &[lower])
}

/// 229 nodes, and 28 more names in `d`, among them `b100`, one too many; the upper layer has 128 entries.
fn unloadable() -> (Overlay, u64) {
    let lower = vec![crowded("b", 100, 27), crowded("c", 0, 1)];
    let mut o = Overlay::import(Some(crowded("a", 127, 0)), lower).expect("227 files, d and the root");
    let d = at(&mut o, "d");
    (o, d)
}

/// 256 nodes, and an upper layer with 128 entries.
fn full() -> Overlay {
    Overlay::import(Some(crowded("a", 127, 0)), vec![crowded("b", 127, 0)]).expect("254 files, d and the root")
}

/// An upper layer with 128 entries, and nodes to spare.
fn full_upper() -> Overlay {
    Overlay::import(Some(crowded("a", 127, 0)), vec![]).expect("127 files, d and the root")
}

#[test]
fn creations_22_for_a_malformed_name() {
    let mut o = named(None);
    for (creation, name) in CREATIONS.iter().flat_map(|c| MALFORMED.map(|name| (c, name))) {
        refused(&mut o, 22, |o| creation(o, 99, name));
    }
}

#[test]
fn creations_22_for_a_malformed_argument() {
    let mut o = named(None);
    for bad in [0o10000, u32::MAX] {
        refused(&mut o, 22, |o| o.create(99, b"n", bad, 0));
        refused(&mut o, 22, |o| o.create(99, b"n", 0, bad));
        refused(&mut o, 22, |o| o.mknod(99, b"n", 1, bad, 0, 0));
        refused(&mut o, 22, |o| o.mknod(99, b"n", 1, 0, bad, 0));
    }
    let kinds = (0..20).filter(|k| ![1, 2, 6, 8, 12].contains(k)).chain([256 + 8, (1 << 16) + 8, u32::MAX]);
    kinds.for_each(|kind| refused(&mut o, 22, |o| o.mknod(99, b"n", kind, 0o644, 0, 0)));
}

/// 2 unknown, 30, 2 whiteout, 20.
#[test]
fn creations_refuse_the_parent() {
    for creation in CREATIONS {
        let mut o = named(None);
        UNKNOWN.into_iter().for_each(|parent| refused(&mut o, 2, |o| creation(o, parent, b"n")));
        [ROOT, D, F, W].into_iter().for_each(|parent| refused(&mut o, 30, |o| creation(o, parent, LONG)));
        let mut o = named(Some(""));
        UNKNOWN.into_iter().for_each(|parent| refused(&mut o, 2, |o| creation(o, parent, b"n")));
        refused(&mut o, 2, |o| creation(o, W, LONG));
        refused(&mut o, 20, |o| creation(o, F, LONG));
    }
}

/// Load (23), 17, 36, 23, 28.
#[test]
fn creations_refuse_the_name() {
    for creation in CREATIONS {
        let (mut o, d) = unloadable();
        refused(&mut o, 23, |o| creation(o, d, b"b100"));
        refused(&mut full(), 17, |o| creation(o, ROOT, b"b5"));
        refused(&mut full(), 36, |o| creation(o, ROOT, LONG));
        refused(&mut full(), 23, |o| creation(o, ROOT, b"n"));
        refused(&mut full_upper(), 28, |o| creation(o, ROOT, b"n"));
    }
}

/// 17, then 1, then 36.
#[test]
fn mknod_1_for_a_whiteout() {
    let whiteout = Kind::Character.number();
    let mut o = full();
    refused(&mut o, 17, |o| o.mknod(ROOT, b"b5", whiteout, 0o644, 0, 0));
    refused(&mut o, 1, |o| o.mknod(ROOT, LONG, whiteout, 0o644, 0, 0));
    refused(&mut o, 1, |o| o.mknod(ROOT, b"n", whiteout, 0o644, 0, 0));
    let mut o = named(Some(""));
    refused(&mut o, 1, |o| o.mknod(ROOT, b"w", whiteout, 0o644, 0, 0));
    refused(&mut o, 1, |o| o.mknod(ROOT, b"n", whiteout, 0o644, 0o777, 0));
    assert_eq!(o.mknod(ROOT, b"n", Kind::Character.number(), 0o644, 0, 1), Ok(5));
    assert_eq!(o.mknod(ROOT, b"m", Kind::Block.number(), 0o644, 0, 0), Ok(6));
}

/// 229 nodes, and 27 more names in `d`: all get a node, and no further one would; the upper layer has 128 entries.
fn just_loadable() -> (Overlay, u64) {
    let mut o = Overlay::import(Some(crowded("a", 127, 0)), vec![crowded("b", 100, 27)]).expect("227 files, d and the root");
    let d = at(&mut o, "d");
    (o, d)
}

/// An upper layer with 127 records, and a lower directory `z` that is not loaded.
fn nearly_full_upper() -> (Overlay, u64) {
    let mut o = over(Some(filled("", 127)), &["record 2 directory 0755\nrecord 3 fifo 0\nentry 0 1 2 z\nentry 1 2 3 k"]);
    let z = at(&mut o, "z");
    (o, z)
}

/// The load stays; no directory is made, where the Rust has made it by then.
#[test]
fn creations_refused_after_a_load() {
    for creation in CREATIONS {
        refused_after_load(&mut named(Some("")), D, 17, |o| creation(o, D, b"k"));
        refused_after_load(&mut named(Some("")), D, 36, |o| creation(o, D, LONG));
        let (mut o, d) = just_loadable();
        refused_after_load(&mut o, d, 23, |o| creation(o, d, b"n"));
        let (mut o, z) = nearly_full_upper();
        refused_after_load(&mut o, z, 28, |o| creation(o, z, b"n"));
    }
    refused_after_load(&mut named(Some("")), D, 1, |o| o.mknod(D, b"n", Kind::Character.number(), 0, 0, 0));
}

/// 23 only where the name has no node: over a whiteout all 256 nodes may be taken.
#[test]
fn a_name_that_has_a_node_needs_none() {
    let upper = "record 2 character 0\nentry 0 1 2 a0";
    let lower = vec![crowded("a", 127, 0), crowded("b", 127, 0)];
    let fresh = Overlay::import(Some(table(upper)), lower).expect("254 files, d and the root");
    assert_eq!(fresh.nodes().len(), 256);
    for creation in CREATIONS {
        let mut o = fresh.clone();
        let a = at(&mut o, "a0");
        refused(&mut o, 23, |o| creation(o, ROOT, b"n"));
        assert_eq!(creation(&mut o, ROOT, b"a0"), Ok(a));
        afresh(&o);
    }
    let mut o = fresh.clone();
    let (a, b) = (at(&mut o, "a0"), at(&mut o, "b0"));
    refused(&mut o, 23, |o| o.link(b, ROOT, b"n"));
    assert_eq!(o.link(b, ROOT, b"a0"), Ok(a));
    afresh(&o);
}

/// 22, 2 either unknown, 30.
#[test]
fn link_refuses_name_numbers_and_no_upper_layer() {
    let mut o = named(None);
    MALFORMED.into_iter().for_each(|name| refused(&mut o, 22, |o| o.link(99, 99, name)));
    for unknown in UNKNOWN {
        refused(&mut o, 2, |o| o.link(unknown, W, LONG));
        refused(&mut o, 2, |o| o.link(W, unknown, LONG));
    }
    for (source, parent) in [(F, ROOT), (W, ROOT), (F, W), (D, F)] {
        refused(&mut o, 30, |o| o.link(source, parent, LONG));
    }
}

/// 2 either whiteout, 1, 20.
#[test]
fn link_refuses_source_and_parent() {
    let mut o = named(Some(""));
    for (source, parent) in [(W, ROOT), (W, F), (F, W), (D, W), (W, W)] {
        refused(&mut o, 2, |o| o.link(source, parent, LONG));
    }
    for (source, parent) in [(D, F), (D, ROOT), (D, D), (ROOT, F), (ROOT, ROOT)] {
        refused(&mut o, 1, |o| o.link(source, parent, LONG));
    }
    refused(&mut o, 20, |o| o.link(F, F, LONG));
}

/// Load (23), 17, 36, 23, 28.
#[test]
fn link_refuses_the_name() {
    let (mut o, d) = unloadable();
    let a = at(&mut o, "a0");
    refused(&mut o, 23, |o| o.link(a, d, b"b100"));
    let mut o = full();
    let (a, b) = (at(&mut o, "a0"), at(&mut o, "b0"));
    for source in [a, b] {
        refused(&mut o, 17, |o| o.link(source, ROOT, b"a0"));
        refused(&mut o, 17, |o| o.link(source, ROOT, b"d"));
        refused(&mut o, 36, |o| o.link(source, ROOT, LONG));
        refused(&mut o, 23, |o| o.link(source, ROOT, b"n"));
    }
    let mut o = full_upper();
    let a = at(&mut o, "a0");
    refused(&mut o, 28, |o| o.link(a, ROOT, b"n"));
}

/// The load stays; neither source nor directory is copied up, where the Rust has done both by then.
#[test]
fn link_refused_after_a_load() {
    refused_after_load(&mut named(Some("")), D, 17, |o| o.link(F, D, b"k"));
    refused_after_load(&mut named(Some("")), D, 36, |o| o.link(F, D, LONG));
    let (mut o, d) = just_loadable();
    let a = at(&mut o, "a0");
    refused_after_load(&mut o, d, 23, |o| o.link(a, d, b"n"));
    let (mut o, z) = nearly_full_upper();
    let f = at(&mut o, "f2");
    assert_eq!(o.link(f, ROOT, b"n").map(|_| ()), Ok(()));
    refused_after_load(&mut o, z, 28, |o| o.link(f, z, b"n"));
}

/// 2 unknown, 30, 2 whiteout, success without change, 28.
#[test]
fn copy_up_refuses() {
    let mut o = named(None);
    UNKNOWN.into_iter().for_each(|node| refused(&mut o, 2, |o| o.copy_up(node)));
    [ROOT, D, F, W].into_iter().for_each(|node| refused(&mut o, 30, |o| o.copy_up(node)));
    let mut o = named(Some(""));
    UNKNOWN.into_iter().for_each(|node| refused(&mut o, 2, |o| o.copy_up(node)));
    refused(&mut o, 2, |o| o.copy_up(W));
    let mut o = full();
    let (a, b, before) = (at(&mut o, "a0"), at(&mut o, "b0"), o.clone());
    assert_eq!((o.copy_up(a), o.copy_up(ROOT)), (Ok(()), Ok(())));
    assert_eq!((o.upper(), o.state()), (before.upper(), before.state()));
    refused(&mut o, 28, |o| o.copy_up(b));
}

/// A copy-up loads nothing: of a directory whose names have no nodes, it is accepted as well where none would fit.
#[test]
fn copy_up_loads_nothing() {
    let lower = vec![crowded("b", 100, 27), crowded("c", 100, 27)];
    let mut o = Overlay::import(Some(table("")), lower).expect("200 files, d and the root");
    let d = at(&mut o, "d");
    assert_eq!(o.copy_up(d), Ok(()));
    assert_eq!((o.nodes().len(), o.node(d).map(|n| (n.loaded, n.stack))), (202, Ok((false, vec![(0, 2), (1, 2), (2, 2)]))));
    afresh(&o);
}
