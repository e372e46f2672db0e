//! Each call on the samples, the owner's layer over the factory's: its answers and its refusals.

mod common;

use overlay::{Count, Errno, Overlay, Page, ROOT, STATE, Table, text};

fn sample(name: &str) -> Table {
    text::table(&common::text(&format!("samples/{name}.txt"))).unwrap_or_else(|e| panic!("samples/{name}.txt, {e}"))
}

fn samples() -> Overlay {
    Overlay::import(Some(sample("owner")), vec![sample("factory")]).expect("the samples keep the rules")
}

/// The samples with `styles` loaded: styles is node 2, neutral 3, sepia 4 (deleted), vivid 5.
fn loaded() -> Overlay {
    let mut o = samples();
    assert_eq!(o.count(2), Ok(Count { live: 2, whiteouts: 1 }));
    o
}

fn lines(o: &Overlay) -> Vec<String> {
    o.nodes().iter().map(|n| n.to_string()).collect()
}

#[test]
fn import_loads_the_root() {
    let mut o = samples();
    assert_eq!(lines(&o), ["node 1 in 0 count 2 stack 0:1 1:1 loaded name /", "node 2 in 1 count 1 stack 0:2 1:2 name styles"]);
    assert_eq!((o.next_number(), o.state().len()), (3, STATE));
    assert_eq!(o.upper(), Some(&sample("owner")));
    assert_eq!(o.lower(), [sample("factory")]);
    assert_eq!((o.layer(0), o.layer(1), o.layer(2)), (o.upper(), Some(&sample("factory")), None));
    let fresh = o.state().to_vec();
    assert_eq!(o.lookup(ROOT, b"styles"), Ok(2));
    assert_ne!(o.state(), fresh);
    assert_eq!(o.again(), Ok(()));
    assert_eq!(o.state(), fresh);
}

#[test]
fn import_refuses_22() {
    assert_eq!(Overlay::import(None, vec![]).err(), Some(Errno::Einval));
    assert_eq!(Overlay::import(None, vec![sample("factory"); 4]).err(), Some(Errno::Einval));
    assert_eq!(Overlay::import(Some(Table::empty()), vec![]).err(), Some(Errno::Einval));
    assert!(Overlay::import(None, vec![sample("factory"); 3]).is_ok());
}

#[test]
fn lookup_finds_the_topmost_and_counts() {
    let mut o = samples();
    assert_eq!(o.lookup(ROOT, b"styles"), Ok(2));
    assert_eq!(o.lookup(2, b"vivid"), Ok(5));
    assert_eq!(o.lookup(2, b"neutral"), Ok(3));
    assert_eq!(
        lines(&o)[1..],
        [
            "node 2 in 1 count 2 stack 0:2 1:2 loaded name styles",
            "node 3 in 2 count 2 stack 1:3 name neutral",
            "node 4 in 2 count 1 stack 0:4 whiteout name sepia",
            "node 5 in 2 count 2 stack 0:3 name vivid",
        ]
    );
    let vivid = o.node(5).expect("vivid is known");
    let record = vivid.stack.first().and_then(|&(layer, record)| o.layer(layer)?.record(record.into()));
    assert_eq!(record.map(|r| (r.size, r.content)), Some((512, 99)));
}

#[test]
fn lookup_refuses_22_2_20_2() {
    let mut o = loaded();
    let before = o.state().to_vec();
    for name in [&b""[..], b".", b"..", b"a/b", b"\0"] {
        assert_eq!(o.lookup(99, name), Err(Errno::Einval), "{}", text::name(name));
    }
    assert_eq!(o.lookup(99, b"k"), Err(Errno::Enoent));
    assert_eq!(o.lookup(4, b"k"), Err(Errno::Enoent));
    assert_eq!(o.lookup(5, b"k"), Err(Errno::Enotdir));
    for name in [&b"absent"[..], b"sepia", &[b'n'; 28], &[b'n'; 29], &[b'n'; 300]] {
        assert_eq!(o.lookup(2, name), Err(Errno::Enoent), "{}", text::name(name));
    }
    assert_eq!(o.state(), before);
}

#[test]
fn count_loads_and_refuses_2_20() {
    let mut o = loaded();
    assert_eq!(o.node(2).map(|n| n.loaded), Ok(true));
    assert_eq!(o.count(ROOT), Ok(Count { live: 1, whiteouts: 0 }));
    assert_eq!(o.count(99), Err(Errno::Enoent));
    assert_eq!(o.count(4), Err(Errno::Enoent));
    assert_eq!(o.count(5), Err(Errno::Enotdir));
}

#[test]
fn listing_is_in_byte_order_and_refuses_2_20() {
    let mut o = samples();
    let listed: Vec<String> = o.listing(2).expect("styles is a directory").iter().map(|d| d.to_string()).collect();
    let expected = [
        "inode 2 offset 1 type 4 name .",
        "inode 1 offset 2 type 4 name ..",
        "inode 3 offset 3 type 8 name neutral",
        "inode 3 offset 4 type 8 name vivid",
    ];
    assert_eq!(listed, expected);
    let mut buffer = [7; 96];
    assert_eq!(o.list(99, 0, 0, &mut buffer), Ok(Page { bytes: 0, remains: false }));
    assert_eq!(o.list(99, 0, 96, &mut buffer), Err(Errno::Enoent));
    assert_eq!(o.list(4, 0, 96, &mut buffer), Err(Errno::Enoent));
    assert_eq!(o.list(5, 0, 96, &mut buffer), Err(Errno::Enotdir));
    assert_eq!(buffer, [7; 96]);
}

#[test]
fn forget_lowers_and_takes() {
    let mut o = loaded();
    let before = o.state().to_vec();
    [(3, 0), (1, 9), (99, 9)].into_iter().for_each(|(node, amount)| o.forget(node, amount));
    assert_eq!(o.state(), before);
    assert_eq!(o.lookup(2, b"vivid"), Ok(5));
    o.forget(5, 1);
    assert_eq!(o.node(5).map(|n| n.count), Ok(1));
    o.forget(5, 9);
    assert_eq!(o.node(5), Err(Errno::Enoent));
    assert_eq!(o.node(2).map(|n| n.loaded), Ok(false));
    assert_eq!(o.lookup(2, b"vivid"), Ok(6));
}

#[test]
fn node_refuses_2() {
    let o = samples();
    assert_eq!(o.node(0), Err(Errno::Enoent));
    assert_eq!(o.node(3), Err(Errno::Enoent));
    assert_eq!(o.node(u64::MAX), Err(Errno::Enoent));
    assert_eq!(o.nodes().iter().map(|n| o.node(n.number.into())).collect::<Vec<_>>(), o.nodes().into_iter().map(Ok).collect::<Vec<_>>());
}

#[test]
fn a_clone_goes_its_own_way() {
    let mut o = samples();
    let other = o.clone();
    assert_eq!(o.lookup(ROOT, b"styles"), Ok(2));
    assert_eq!(o.node(2).map(|n| n.count), Ok(2));
    assert_eq!(other.node(2).map(|n| n.count), Ok(1));
}
