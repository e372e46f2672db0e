//! The rows of docs/DIFFERENCES.md that are no listed difference of the runs: each on its smallest input, both sides asserted.

mod common;

use common::{sides, table};
use oracle::Oracle;
use overlay::{Errno, Overlay, ROOT, Table};

const A: &str = "record 2 regular 0644\nentry 0 1 2 a";
const D_F: &str = "record 2 directory 0755\nrecord 3 regular 0644\nentry 0 1 2 d\nentry 1 2 3 f";

/// Both sides over one upper layer; none where there is no Rust text.
fn both(lines: &str) -> Option<(Overlay, Oracle)> {
    sides()?;
    let upper = table(lines);
    let rust = Oracle::import(Some(upper.bytes()), &[]).expect("the Rust imports");
    Some((Overlay::import(Some(upper), Vec::new()).expect("an import"), rust))
}

/// The Rust's number of a resident child.
fn child(rust: &Oracle, parent: u64, name: &[u8]) -> u64 {
    let children = rust.view(parent).expect("a node").children;
    children.into_iter().find(|(n, _)| n == name).expect("a resident child").1
}

#[test]
fn a_damaged_layer() {
    if sides().is_none() {
        return;
    }
    let unnamed = table("record 2 regular 0644");
    let rust = Oracle::import(Some(unnamed.bytes()), &[]);
    assert_eq!(rust.map(|rust| rust.count(ROOT)).ok(), Some(Ok((0, 0))), "the Rust accepts it");
    assert_eq!(Overlay::import(Some(unnamed), Vec::new()).err(), Some(Errno::Einval));
}

/// Node numbers: the Rust's creation gives the forgotten number again, ours never does.
#[test]
fn node_numbers() {
    if sides().is_none() {
        return;
    }
    let (upper, lower) = (table(""), table(A));
    let rust = Oracle::import(Some(upper.bytes()), &[lower.bytes()]).expect("the Rust imports");
    let a = child(&rust, ROOT, b"a");
    rust.forget(a, 1);
    assert_eq!(rust.create(ROOT, b"a", 0o644, 0), Ok(a));
    let mut ours = Overlay::import(Some(upper), vec![lower]).expect("an import");
    assert_eq!(ours.lookup(ROOT, b"a"), Ok(2));
    ours.forget(2, 2);
    assert_eq!(ours.lookup(ROOT, b"a"), Ok(3));
}

#[test]
fn forget_to_0() {
    let Some((mut ours, rust)) = both(A) else { return };
    let a = child(&rust, ROOT, b"a");
    rust.forget(a, 1);
    assert!(rust.view(ROOT).expect("the root").loaded);
    assert_eq!((rust.lookup(ROOT, b"a"), rust.count(ROOT)), (Err(2), Ok((0, 0))), "the name is gone for good");
    ours.forget(2, 1);
    assert!(!ours.node(ROOT).expect("the root").loaded);
    assert_eq!(ours.lookup(ROOT, b"a"), Ok(3), "the next load finds it again");
}

#[test]
fn forget_of_a_directory_with_resident_children() {
    let Some((mut ours, rust)) = both(D_F) else { return };
    let d = child(&rust, ROOT, b"d");
    rust.load(d).expect("a load");
    let f = child(&rust, d, b"f");
    rust.forget(d, 1);
    assert_eq!(rust.view(d), None, "it goes");
    assert!(rust.view(f).is_some(), "its child stays, without a parent");
    assert_eq!(ours.count(2).map(|c| c.live), Ok(1));
    ours.forget(2, 1);
    let d = ours.node(2).expect("it stays");
    assert_eq!((d.count, d.loaded), (0, true));
    assert!(ours.node(ROOT).expect("the root").loaded, "and its parent keeps its mark");
}

/// A hash map's order is another one in each run; that of 20 names is not the names' own.
#[test]
fn listing_order() {
    let lines: String = (2..22).map(|i| format!("record {i} regular 0644\nentry {} 1 {i} n{i:02}\n", i - 2)).collect();
    let Some((mut ours, rust)) = both(&lines) else { return };
    let ours: Vec<Vec<u8>> = ours.listing(ROOT).expect("a listing").into_iter().map(|d| d.name).collect();
    let rust: Vec<Vec<u8>> = rust.list(ROOT).expect("a listing").into_iter().map(|l| l.name).collect();
    assert!(ours.is_sorted());
    assert!(!rust.is_sorted());
    let mut sorted = rust.clone();
    sorted.sort();
    assert_eq!(sorted, ours, "the same set");
}

#[test]
fn a_name_that_is_not_utf_8() {
    let Some((mut ours, rust)) = both("record 2 regular 0644\nentry 0 1 2 \\ff") else { return };
    assert_eq!(ours.listing(ROOT).expect("a listing").len(), 3);
    assert_eq!(ours.lookup(ROOT, b"\xff"), Ok(2));
    assert_eq!(rust.list(ROOT).expect("a listing").len(), 2, "the Rust drops it");
    assert_eq!(rust.lookup(ROOT, b"\xff"), Err(2));
}

/// Both sides over an empty upper layer and one lower one; none where there is no Rust text.
fn both_over(lower: &str) -> Option<(Overlay, Oracle)> {
    sides()?;
    let (upper, lower) = (table(""), table(lower));
    let rust = Oracle::import(Some(upper.bytes()), &[lower.bytes()]).expect("the Rust imports");
    Some((Overlay::import(Some(upper), vec![lower]).expect("an import"), rust))
}

/// What the Rust's upper layer holds.
fn rust_upper(rust: &Oracle) -> Table {
    rust.upper().and_then(|bytes| Table::from_bytes(&bytes)).expect("an upper layer")
}

#[test]
fn devices_fifos_and_sockets_copied_up() {
    for kind in ["block 0640 device 7", "character 0640 device 7", "fifo 0640", "socket 0640"] {
        let lines = format!("record 2 {kind}\nentry 0 1 2 a");
        let Some((mut ours, rust)) = both_over(&lines) else { return };
        rust.copy_up(child(&rust, ROOT, b"a")).expect("a copy-up");
        assert_eq!(rust_upper(&rust), table("record 2 regular 0640\nentry 0 1 2 a"), "the Rust makes a regular file");
        ours.copy_up(2).expect("a copy-up");
        assert_eq!(ours.upper(), Some(&table(&lines)), "here it is what it was");
    }
}

/// A symlink has permissions and a size of its own in a table.
#[test]
fn a_symlink_copied_up() {
    let lines = "record 2 symlink 0640 size 3 content 7\nentry 0 1 2 a";
    let Some((mut ours, rust)) = both_over(lines) else { return };
    rust.copy_up(child(&rust, ROOT, b"a")).expect("a copy-up");
    assert_eq!(rust_upper(&rust), table("record 2 symlink 0777 content 7\nentry 0 1 2 a"));
    ours.copy_up(2).expect("a copy-up");
    assert_eq!(ours.upper(), Some(&table(lines)));
}

/// The Rust's creations answer no node: its callers look the name up, and so count it.
#[test]
fn a_creations_node() {
    let Some((mut ours, rust)) = both_over("") else { return };
    let n = ours.create(ROOT, b"n", 0o644, 0).expect("a creation");
    assert_eq!(ours.node(n).expect("the node").count, 1);
    let there = rust.create(ROOT, b"n", 0o644, 0).expect("a creation");
    assert_eq!(rust.view(there).expect("the node").count, 1, "as the creation left it");
    assert_eq!(rust.lookup(ROOT, b"n"), Ok(there));
    assert_eq!(rust.view(there).expect("the node").count, 2, "as a caller leaves it");
}

/// The Rust's node of a creation has no parent, whose table therefore keeps its name.
#[test]
fn forget_of_a_creations_node() {
    let Some((mut ours, rust)) = both_over("") else { return };
    let there = rust.create(ROOT, b"n", 0o644, 0).expect("a creation");
    rust.forget(there, 1);
    assert_eq!((rust.lookup(ROOT, b"n"), rust.view(there)), (Ok(there), None), "found, and unknown to every call");
    let n = ours.create(ROOT, b"n", 0o644, 0).expect("a creation");
    ours.forget(n, 1);
    assert_eq!((ours.node(n).err(), ours.lookup(ROOT, b"n")), (Some(Errno::Enoent), Ok(n + 1)));
}

#[test]
fn a_creation_after_forgetting_a_lower_file() {
    let Some((mut ours, rust)) = both_over(A) else { return };
    rust.forget(child(&rust, ROOT, b"a"), 1);
    rust.create(ROOT, b"a", 0o600, 0).expect("the Rust makes another");
    ours.forget(2, 1);
    assert_eq!(ours.create(ROOT, b"a", 0o600, 0), Err(Errno::Eexist));
}

#[test]
fn a_creation_after_forgetting_an_upper_whiteout() {
    let Some((mut ours, rust)) = both("record 2 character 0\nentry 0 1 2 a") else { return };
    rust.forget(child(&rust, ROOT, b"a"), 1);
    assert_eq!([(); 2].map(|()| rust.create(ROOT, b"a", 0o644, 0)), [Err(17); 2], "for good");
    ours.forget(2, 1);
    assert_eq!(ours.create(ROOT, b"a", 0o644, 0), Ok(3));
}

#[test]
fn a_umask_over_4095() {
    let Some((mut ours, rust)) = both_over("") else { return };
    rust.create(ROOT, b"n", 0o644, 0o10022).expect("the Rust takes it");
    assert_eq!(ours.create(ROOT, b"n", 0o644, 0o10022), Err(Errno::Einval));
}

/// The Rust's device numbers have 32 bits, so that the driver has no call to make.
#[test]
fn a_device_number_of_over_32_bits() {
    let Some((mut ours, rust)) = both_over("") else { return };
    assert_eq!(rust.mknod(ROOT, b"n", 6, 0o644, 0, 1 << 32), Err(22));
    ours.mknod(ROOT, b"n", 6, 0o644, 0, 1 << 32).expect("64 bits here");
    assert_eq!(ours.upper(), Some(&table("record 2 block 0644 device 4294967296\nentry 0 1 2 n")));
}
