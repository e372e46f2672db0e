//! Layer tables as text, in the lines of docs/TEXT.md: the host's one encoder, and its way back.

mod print;
mod words;

pub use print::{name, print};
pub use words::unescape;

use crate::table::{Kind, NAME, TABLE, Table};
use words::{Words, in_range, name_bytes};

/// The table that these lines put together: `record`, `entry` and `byte` lines, empty lines and comments. It tests no rule of document
/// 01, so that damaged tables can be written too; a line that is none, or a number that does not fit, is told with its line number.
///
/// ```
/// let t = overlay::text::table("record 1 directory 0755\nrecord 2 regular 0644 size 5\nentry 0 1 2 k\n").unwrap();
/// assert_eq!(t.entry(0).unwrap().name, b"k");
/// assert_eq!(overlay::text::table("record 1 folder 0755").unwrap_err(),
///     "line 1: `folder` is no kind: write fifo, character, directory, block, regular, symlink, socket or a number below 256");
/// ```
pub fn table(lines: &str) -> Result<Table, String> {
    let mut t = Table::empty();
    for (i, line) in lines.split('\n').enumerate() {
        put_line(&mut t, line).map_err(|e| format!("line {}: {e}", i + 1))?;
    }
    Ok(t)
}

/// Puts what one line says into a table; an empty line and a comment put nothing.
pub fn put_line(t: &mut Table, line: &str) -> Result<(), String> {
    let mut words = Words::of(line);
    match words.next() {
        None => Ok(()),
        Some(w) if w.starts_with('#') => Ok(()),
        Some("record") => record_line(t, words),
        Some("entry") => entry_line(t, words),
        Some("byte") => byte_line(t, words),
        Some(w) => Err(format!("`{w}` starts no table line: write record, entry, byte, or # before a comment")),
    }
}

/// Whether a line is one that [`put_line`] puts: its first word is `record`, `entry` or `byte`.
pub fn is_table_line(line: &str) -> bool {
    matches!(Words::of(line).next(), Some("record" | "entry" | "byte"))
}

const RECORD: &str = "record PLACE KIND PERMISSIONS [FIELD VALUE]..";
const ENTRY: &str = "entry PLACE PARENT CHILD NAME [LENGTH [ZERO]]";
const BYTE: &str = "byte OFFSET VALUE";

/// `record PLACE KIND PERMISSIONS [FIELD VALUE]..`
fn record_line(t: &mut Table, mut words: Words) -> Result<(), String> {
    let place = in_range(words.need("PLACE", RECORD)?, 1, 128)? as usize;
    let kind = kind_byte(words.need("KIND", RECORD)?)?;
    let permissions = in_range(words.need("PERMISSIONS", RECORD)?, 0, u16::MAX.into())? as u16;
    let mut item = [0u8; 32];
    item[0] = place as u8;
    item[1] = kind;
    item[4..6].copy_from_slice(&permissions.to_le_bytes());
    while let Some(field) = words.next() {
        let (at, length) = field_place(field)?;
        let value = in_range(words.need("VALUE", RECORD)?, 0, u64::MAX >> (64 - 8 * length))?;
        item[at..at + length].copy_from_slice(&value.to_le_bytes()[..length]);
    }
    t.record_item(place).copy_from_slice(&item);
    Ok(())
}

/// Where a record's field stands in its 32 bytes, and how many it has.
fn field_place(field: &str) -> Result<(usize, usize), String> {
    match field {
        "number" => Ok((0, 1)),
        "opaque" => Ok((2, 1)),
        "mark" => Ok((3, 1)),
        "links" => Ok((6, 2)),
        "device" => Ok((8, 8)),
        "size" => Ok((16, 8)),
        "content" => Ok((24, 8)),
        _ => Err(format!("`{field}` is no field: write device, size, content, opaque, mark, links or number")),
    }
}

fn kind_byte(word: &str) -> Result<u8, String> {
    if let Some(kind) = Kind::ALL.into_iter().find(|k| k.word() == word) {
        return Ok(kind as u8);
    }
    let words = "write fifo, character, directory, block, regular, symlink, socket or a number below 256";
    in_range(word, 0, 255).map(|n| n as u8).map_err(|_| format!("`{word}` is no kind: {words}"))
}

/// `entry PLACE PARENT CHILD NAME [LENGTH [ZERO]]`; of a name of over 28 bytes the first 28 are put, with the length of all.
fn entry_line(t: &mut Table, mut words: Words) -> Result<(), String> {
    let place = in_range(words.need("PLACE", ENTRY)?, 0, 127)? as usize;
    let parent = in_range(words.need("PARENT", ENTRY)?, 0, 255)? as u8;
    let child = in_range(words.need("CHILD", ENTRY)?, 0, 255)? as u8;
    let name = name_bytes(words.need("NAME", ENTRY)?)?;
    let length = words.next().map_or(Ok(name.len() as u64), |w| in_range(w, 0, 255))?;
    let zero = words.next().map_or(Ok(0), |w| in_range(w, 0, 255))?;
    words.end(ENTRY)?;
    if length > 255 {
        return Err(format!("a name's length is one byte, and this one has {length} bytes: shorten it"));
    }
    let mut item = [0u8; 32];
    item[..4].copy_from_slice(&[parent, child, length as u8, zero as u8]);
    let n = name.len().min(NAME);
    item[4..4 + n].copy_from_slice(&name[..n]);
    t.entry_item(place).copy_from_slice(&item);
    Ok(())
}

/// `byte OFFSET VALUE`
fn byte_line(t: &mut Table, mut words: Words) -> Result<(), String> {
    let offset = in_range(words.need("OFFSET", BYTE)?, 0, TABLE as u64 - 1)? as usize;
    let value = in_range(words.need("VALUE", BYTE)?, 0, 255)? as u8;
    words.end(BYTE)?;
    t.bytes_mut()[offset] = value;
    Ok(())
}
