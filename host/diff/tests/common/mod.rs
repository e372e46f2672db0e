//! What the tests share.

#![allow(dead_code)]

use diff::case::Case;
use diff::ours::Ours;
use diff::run::{Made, Step, run_case};
use diff::rust::Rust;
use diff::side::Sides;
use diff::text::read_case;
use overlay::{Entry, Kind, Record, Table};

/// The library and the Rust text; none, with a line, where the text was not there at build time.
pub fn sides() -> Option<Sides<'static>> {
    if !oracle::available() {
        println!("skipped: {}", oracle::SKIPPED);
        return None;
    }
    Some(Sides { ours: &Ours::side, rust: &Rust::side })
}

/// A case of these replay lines.
pub fn case(lines: &str) -> Case {
    read_case(lines).unwrap_or_else(|e| panic!("{e}\n{lines}"))
}

/// The last call that a case made, and what came of it.
pub fn last(sides: Sides, case: &Case) -> (Made, Step) {
    let mut last = None;
    run_case(sides, case, |made, step| last = made.cloned().map(|made| (made, step.clone())));
    last.expect("the case's last call names a resident node")
}

/// The table of these lines, with a root before them.
pub fn table(lines: &str) -> Table {
    overlay::text::table(&format!("record 1 directory 0755\n{lines}")).expect("a test's table")
}

/// The lines of a layer with so many records: after those given, files in the lowest free places.
pub fn filled(lines: &str, records: usize) -> String {
    let mut t = table(lines);
    while t.records().count() < records {
        let place = (1..=128).find(|i| t.record(*i).is_none()).expect("a free record");
        let entry = (0..128).find(|j| t.entry(*j).is_none()).expect("a free entry");
        t.put_record(place, &Record::new(Kind::Regular, 0o644));
        t.put_entry(entry, &Entry { parent: 1, child: place as u8, name: format!("f{place}").into_bytes() });
    }
    overlay::text::print(&t)
}
