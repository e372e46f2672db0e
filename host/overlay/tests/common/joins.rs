//! Joins written in the lines of docs/TEXT.md, and what a call leaves of them.

use overlay::{Entry, Errno, Kind, Node, Overlay, ROOT, Record, Table, text};
use std::fmt::{Debug, Write};

/// A name of 29 bytes, one too many.
pub const LONG: &[u8] = b"abcdefghijklmnopqrstuvwxyz012";

/// The table of these lines, with a root before them.
pub fn table(lines: &str) -> Table {
    text::table(&format!("record 1 directory 0755\n{lines}")).expect("a test's table")
}

/// A join of layers of these lines.
pub fn join(upper: Option<&str>, lower: &[&str]) -> Overlay {
    over(upper.map(table), lower)
}

/// A join of an upper table and lower layers of these lines.
pub fn over(upper: Option<Table>, lower: &[&str]) -> Overlay {
    Overlay::import(upper, lower.iter().map(|lines| table(lines)).collect()).expect("good layers whose names fit")
}

/// The table of these lines with files `f2`, `f3`, .. in the root, in the lowest free places, until so many records are used.
pub fn filled(lines: &str, records: usize) -> Table {
    let mut t = table(lines);
    while t.records().count() < records {
        let place = (1..=128).find(|i| t.record(*i).is_none()).expect("a free record");
        let entry = (0..128).find(|j| t.entry(*j).is_none()).expect("a free entry");
        t.put_record(place, &Record::new(Kind::Regular, 0o644));
        t.put_entry(entry, &Entry { parent: 1, child: place as u8, name: format!("f{place}").into_bytes() });
    }
    t
}

/// A layer with `names` regular files under the root, `PREFIX0` and on, and a directory `d` with `inside` of them.
pub fn crowded(prefix: &str, names: usize, inside: usize) -> Table {
    let mut lines = String::from("record 2 directory 0755\nrecord 3 regular 0644\nentry 0 1 2 d\n");
    for i in 0..names + inside {
        let parent = if i < names { 1 } else { 2 };
        writeln!(lines, "entry {} {parent} 3 {prefix}{i}", i + 1).expect("a string takes any text");
    }
    table(&lines)
}

/// The children that have a node, in byte order.
fn children(o: &Overlay, node: u64) -> Vec<Node> {
    o.nodes().into_iter().filter(|n| u64::from(n.parent) == node).collect()
}

/// The node of a path such as `d/e/f`, a whiteout's too. Its directories are loaded, and no lookup is counted.
pub fn at(o: &mut Overlay, path: &str) -> u64 {
    path.split('/').fold(ROOT, |parent, name| {
        o.count(parent).expect("a directory that can be loaded");
        let found = children(o, parent).into_iter().find(|n| n.name == name.as_bytes());
        found.unwrap_or_else(|| panic!("`{name}` has no node")).number.into()
    })
}

/// A node's line.
pub fn line(o: &Overlay, node: u64) -> String {
    o.node(node).expect("a known node").to_string()
}

/// The records behind a path.
pub fn stack(o: &mut Overlay, path: &str) -> Vec<(u8, u8)> {
    let node = at(o, path);
    o.node(node).expect("a known node").stack
}

/// The upper layer is what these lines say, and what is loaded is a merge afresh.
pub fn left(o: &Overlay, lines: &str) {
    assert_eq!(o.upper(), Some(&table(lines)));
    afresh(o);
}

/// What is loaded equals what an import of the same layers loads: names, whiteout marks and stacks, directory by directory.
pub fn afresh(o: &Overlay) {
    let mut new = o.clone();
    new.again().expect("layers that keep the rules");
    same_below(o, &mut new, ROOT, ROOT);
}

fn same_below(old: &Overlay, new: &mut Overlay, before: u64, now: u64) {
    if !old.node(before).expect("a known node").loaded {
        return;
    }
    new.count(now).expect("a directory that can be loaded");
    let (a, b) = (children(old, before), children(new, now));
    let merged = |nodes: &[Node]| nodes.iter().map(|n| (text::name(&n.name), n.whiteout, n.stack.clone())).collect::<Vec<_>>();
    assert_eq!(merged(&a), merged(&b), "what is loaded and a merge afresh, below node {before}");
    a.iter().zip(&b).for_each(|(a, b)| same_below(old, new, a.number.into(), b.number.into()));
}

/// The call is refused with this number, and upper layer and state are as they were.
pub fn refused<T: Debug + PartialEq>(o: &mut Overlay, number: u32, call: impl FnOnce(&mut Overlay) -> Result<T, Errno>) {
    let before = o.clone();
    assert_eq!(call(o), Err(Errno::of(number).expect("a refusal's number")));
    assert_eq!(o.upper(), before.upper(), "the upper layer after a refusal with {number}");
    assert!(o.state() == before.state(), "the state after a refusal with {number}: {o:?}instead of {before:?}");
}

/// The call is refused with this number, and upper layer and state are as a load alone of this directory leaves them.
pub fn refused_after_load<T: Debug + PartialEq>(o: &mut Overlay, d: u64, number: u32, call: impl FnOnce(&mut Overlay) -> Result<T, Errno>) {
    let mut loaded = o.clone();
    loaded.count(d).expect("a directory that can be loaded");
    assert!(o.state() != loaded.state(), "the directory was loaded before");
    assert_eq!(call(o), Err(Errno::of(number).expect("a refusal's number")));
    assert_eq!(o.upper(), loaded.upper(), "the upper layer after a refusal with {number}");
    assert!(o.state() == loaded.state(), "the state after a load and a refusal with {number}: {o:?}instead of {loaded:?}");
}
