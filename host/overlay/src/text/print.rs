//! A table back as its lines.

use crate::bytes::{u16_at, u64_at};
use crate::table::{Kind, NAME, PLACES, Table, entry_offset, record_offset};
use std::fmt::Write;

/// The used items of a table, a line each, and a `byte` line for each byte of a free place that is not 0. Reading the lines gives the
/// same table back, whatever its bytes are.
pub fn print(t: &Table) -> String {
    let mut out = String::new();
    for place in 1..=PLACES {
        let b = t.record_bytes(place).expect("a record's place");
        if b[0] == 0 { print_bytes(&mut out, record_offset(place), b) } else { print_record(&mut out, place, b) }
    }
    for place in 0..PLACES {
        let b = t.entry_bytes(place).expect("an entry's place");
        if b[0] == 0 { print_bytes(&mut out, entry_offset(place), b) } else { print_entry(&mut out, place, b) }
    }
    out
}

/// A name as docs/REPLAY.md prints it: a byte that is no plain character as `\` and two hexadecimal digits.
pub fn name(bytes: &[u8]) -> String {
    let mut out = String::new();
    for &c in bytes {
        if c.is_ascii_graphic() && c != b'\\' { out.push(c.into()) } else { say(&mut out, format_args!("\\{c:02x}")) }
    }
    out
}

fn say(out: &mut String, words: std::fmt::Arguments) {
    out.write_fmt(words).expect("a string takes any text");
}

fn print_bytes(out: &mut String, offset: usize, b: &[u8]) {
    for (i, &value) in b.iter().enumerate().filter(|(_, v)| **v != 0) {
        say(out, format_args!("byte {} {value}\n", offset + i));
    }
}

fn print_record(out: &mut String, place: usize, b: &[u8]) {
    let kind = Kind::of(b[1].into()).map_or(b[1].to_string(), |k| k.word().into());
    say(out, format_args!("record {place} {kind} 0{:03o}", u16_at(b, 4)));
    let wide = [("device", u64_at(b, 8)), ("size", u64_at(b, 16)), ("content", u64_at(b, 24))];
    let narrow = [("mark", b[3].into()), ("links", u16_at(b, 6).into())];
    let fields = [("opaque", b[2].into())].into_iter().chain(wide).chain(narrow);
    fields.filter(|f| f.1 != 0).for_each(|(field, value)| say(out, format_args!(" {field} {value}")));
    if usize::from(b[0]) != place {
        say(out, format_args!(" number {}", b[0]));
    }
    out.push('\n');
}

/// LENGTH is written where it is not the name's, and with it ZERO where that is not 0.
fn print_entry(out: &mut String, place: usize, b: &[u8]) {
    let (length, zero) = (usize::from(b[2]), b[3]);
    let used = 28 - b[4..].iter().rev().take_while(|c| **c == 0).count();
    let shown = if length <= NAME { used.max(length) } else { used }.max(1);
    say(out, format_args!("entry {place} {} {} {}", b[0], b[1], name(&b[4..4 + shown])));
    if length != shown || zero != 0 {
        say(out, format_args!(" {length}"));
    }
    if zero != 0 {
        say(out, format_args!(" {zero}"));
    }
    out.push('\n');
}
