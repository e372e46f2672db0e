//! What the tests share: layers written in the lines of docs/TEXT.md.

#![allow(dead_code)]

use oracle::{Oracle, View};
use overlay::{Entry, Kind, Record, Table};

/// The root's node.
pub const ROOT: u64 = 1;
/// A layer with its root alone.
pub const EMPTY: &str = "";
/// A name of 29 bytes.
pub const LONG: &[u8] = b"abcdefghijklmnopqrstuvwxyz012";

/// The table of these lines, with a root before them.
pub fn table(lines: &str) -> Table {
    overlay::text::table(&format!("record 1 directory 0755\n{lines}")).expect("a test's table")
}

/// The table of these lines with files `f2`, `f3`, .. in the root, in the lowest free places, until so many records are used.
pub fn filled(lines: &str, records: usize) -> Table {
    let mut t = table(lines);
    while t.records().count() < records {
        let place = (1..=128).find(|i| t.record(*i).is_none()).expect("a free record");
        let entry = (0..128).find(|j| t.entry(*j).is_none()).expect("a free entry");
        t.put_record(place, &Record::new(Kind::Regular, 0o644));
        t.put_entry(entry, &Entry { parent: 1, child: place as u8, name: format!("f{place}").into_bytes() });
    }
    t
}

/// What an import of these tables answers; none, with a line, where the text was not there at build time.
pub fn answer(upper: Option<&Table>, lower: &[Table]) -> Option<Result<Oracle, i32>> {
    if !oracle::available() {
        println!("skipped: {}", oracle::SKIPPED);
        return None;
    }
    let lower: Vec<&[u8]> = lower.iter().map(Table::bytes).collect();
    Some(Oracle::import(upper.map(Table::bytes), &lower))
}

/// An oracle over these tables.
pub fn over(upper: Option<&Table>, lower: &[Table]) -> Option<Oracle> {
    Some(answer(upper, lower)?.unwrap_or_else(|e| panic!("the import is refused with {e}")))
}

/// An oracle over layers of these lines.
pub fn oracle(upper: Option<&str>, lower: &[&str]) -> Option<Oracle> {
    let lower: Vec<Table> = lower.iter().map(|lines| table(lines)).collect();
    over(upper.map(table).as_ref(), &lower)
}

/// The upper layer after what was called.
pub fn upper(o: &Oracle) -> Table {
    Table::from_bytes(&o.upper().expect("an upper layer")).expect("8192 bytes")
}

/// The node of a path, found in its parent's table, so that nothing is loaded or counted.
pub fn node(o: &Oracle, path: &[&str]) -> u64 {
    path.iter().fold(ROOT, |n, name| {
        let children = o.view(n).expect("a node").children;
        children.into_iter().find(|(child, _)| child == name.as_bytes()).unwrap_or_else(|| panic!("`{name}` has no node")).1
    })
}

/// The view of the node of a path.
pub fn view(o: &Oracle, path: &[&str]) -> View {
    o.view(node(o, path)).expect("a node")
}

/// The names of a directory's listing, in byte order.
pub fn names(o: &Oracle, node: u64) -> Vec<String> {
    let mut names: Vec<String> = o.list(node).expect("a listing").into_iter().map(|l| String::from_utf8(l.name).expect("UTF-8")).collect();
    names.sort();
    names
}
