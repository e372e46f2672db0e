//! Tables as text, both ways, and against the project's own encoder.

mod common;

use overlay::{Entry, Kind, Record, Table, text};
use std::io::Write;
use std::process::{Command, Stdio};

/// The tables that a script of docs/REPLAY.md or docs/TEXT.md fills, each as its lines.
fn tables_of(script: &str) -> Vec<String> {
    let mut tables = vec![String::new()];
    for line in script.lines() {
        if matches!(line.split(' ').next(), Some("layers" | "layer" | "table")) {
            tables.push(String::new());
        } else if text::is_table_line(line) {
            tables.last_mut().expect("a table in hand").extend([line, "\n"]);
        }
    }
    tables.retain(|t| !t.is_empty());
    tables
}

fn table(lines: &str) -> Table {
    text::table(lines).unwrap_or_else(|e| panic!("{e}\nin\n{lines}"))
}

#[test]
fn samples_are_their_text() {
    for sample in ["owner", "factory"] {
        let t = table(&common::text(&format!("samples/{sample}.txt")));
        assert_eq!(t.bytes(), common::read(&format!("samples/{sample}.table")), "{sample}");
    }
}

#[test]
fn items_are_read_back() {
    let mut t = Table::empty();
    let r = Record { kind: Kind::Block, permissions: 0o7654, device: 1 << 40, size: u64::MAX, content: 3, opaque: false };
    let e = Entry { parent: 1, child: 128, name: b"twenty-eight bytes are a name".to_vec() };
    t.put_record(128, &r);
    t.put_record(1, &Record { opaque: true, ..Record::new(Kind::Directory, 0o755) });
    t.put_entry(127, &Entry { name: e.name[..28].to_vec(), ..e.clone() });
    assert_eq!(t.record(128), Some(r));
    assert_eq!(t.record(2), None);
    assert_eq!(t.entry(127).map(|e| e.name.len()), Some(28));
    assert_eq!(t.entries().map(|(j, _)| j).collect::<Vec<_>>(), [127]);
    assert_eq!(t.records().map(|(i, r)| (i, r.opaque)).collect::<Vec<_>>(), [(1, true), (128, false)]);
    let lines = "record 1 directory 0755 opaque 1\nrecord 128 block 07654 device 1099511627776 size 18446744073709551615 content 3\n\
                 entry 127 1 128 twenty-eight\\20bytes\\20are\\20a\\20nam\n";
    assert_eq!(text::print(&t), lines);
    assert_eq!(table(lines), t);
    t.clear_record(1);
    t.clear_record(128);
    t.clear_entry(127);
    assert_eq!(t, Table::empty());
}

#[test]
#[should_panic(expected = "a name in a table has at most 28 bytes, not 29")]
fn a_long_name_is_no_entry() {
    Table::empty().put_entry(0, &Entry { parent: 1, child: 2, name: vec![b'n'; 29] });
}

#[test]
fn a_table_has_8192_bytes() {
    assert_eq!(Table::from_bytes(&[0; 8192]), Some(Table::empty()));
    assert_eq!(Table::from_bytes(&[0; 8191]), None);
    assert_eq!(Table::from_bytes(&[0; 8193]), None);
}

/// Damaged tables too: bytes out of a small generator, sparse and dense.
#[test]
fn any_bytes_print_as_lines_that_read_back() {
    let mut seed = 1u64;
    for round in 0..200 {
        let bytes: Vec<u8> = (0..8192)
            .map(|_| {
                seed = seed.wrapping_mul(6364136223846793005).wrapping_add(1442695040888963407);
                let roll = (seed >> 33) as u32;
                if roll % 8 < round % 8 { 0 } else { (roll >> 8) as u8 }
            })
            .collect();
        let t = Table::from_bytes(&bytes).expect("8192 bytes");
        assert_eq!(table(&text::print(&t)).bytes(), bytes, "round {round}");
    }
}

#[test]
fn names_are_escaped_and_back() {
    let all: Vec<u8> = (0..=255).collect();
    assert_eq!(text::unescape(&text::name(&all)), all);
    assert_eq!(text::name(b"a/b \\\x7f\xc3\xa9"), "a/b\\20\\5c\\7f\\c3\\a9");
    assert_eq!(text::unescape("\\2f\\2F\\2"), b"/\\2F\\2");
}

#[test]
fn a_wrong_line_is_told_with_what_to_write() {
    let told = |lines: &str| text::table(lines).expect_err("a wrong line");
    assert_eq!(told("\n# a comment\nrekord"), "line 3: `rekord` starts no table line: write record, entry, byte, or # before a comment");
    assert_eq!(told("record 129 fifo 0"), "line 1: 129 is out of range: write a number from 1 to 128");
    assert_eq!(
        told("record 1 fifo 0 colour 3"),
        "line 1: `colour` is no field: write device, size, content, opaque, mark, links or number"
    );
    assert_eq!(told("record 1 fifo 0 size"), "line 1: VALUE is missing: write record PLACE KIND PERMISSIONS [FIELD VALUE]..");
    assert_eq!(told("record 1 fifo 0888"), "line 1: `0888` is no number from 0 to 65535: write digits, octal ones behind a 0");
    assert_eq!(
        told("record 1 fifo 0 size +1"),
        "line 1: `+1` is no number from 0 to 18446744073709551615: write digits, octal ones behind a 0"
    );
    assert_eq!(told("entry 0 1 2"), "line 1: NAME is missing: write entry PLACE PARENT CHILD NAME [LENGTH [ZERO]]");
    assert_eq!(told("entry 0 1 2 a\\2"), "line 1: a backslash in `a\\2` stands alone: write two digits of 0-9a-f behind it");
    assert_eq!(told("byte 8192 0"), "line 1: 8192 is out of range: write a number from 0 to 8191");
    assert_eq!(told("byte 1 2 3"), "line 1: `3` is one word too many: write byte OFFSET VALUE");
}

/// Where `tools/program encode` leaves the project's encoder.
const ENCODE: &str = "crates/encode/out/encode";

/// What the project's encoder makes of a table's lines.
fn encoded(lines: &str) -> Vec<u8> {
    let program = common::path(ENCODE);
    let mut child = Command::new(program).stdin(Stdio::piped()).stdout(Stdio::piped()).spawn().expect("the encoder starts");
    child.stdin.take().expect("its input").write_all(lines.as_bytes()).expect("it reads the lines");
    child.wait_with_output().expect("it ends").stdout
}

/// The two encoders agree on every table of the replayed scripts, where the project's is built (`tools/program encode`).
#[test]
fn both_encoders_make_the_same_bytes() {
    let scripts = ["crates/replay/stdin", "crates/merge_cases/stdin", "crates/layers_cases/stdin"];
    let tables: Vec<String> = scripts.iter().flat_map(|s| tables_of(&common::text(s))).collect();
    assert!(tables.len() > 80, "only {} tables were found in the scripts", tables.len());
    for lines in &tables {
        let t = table(lines);
        assert_eq!(table(&text::print(&t)), t);
    }
    if !common::path(ENCODE).exists() {
        eprintln!("skipped: the tables against {ENCODE}, which `tools/program encode` builds");
        return;
    }
    for lines in &tables {
        assert_eq!(table(lines).bytes(), encoded(lines), "{lines}");
    }
}
