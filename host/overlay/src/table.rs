//! A layer's table: 128 record places and 128 entry places of 32 bytes each, as docs/ABI.md lays them out.

use crate::bytes::{u16_at, u64_at};
use std::fmt;

/// The bytes of a layer's table.
pub const TABLE: usize = 8192;
/// Record places 1 to 128, entry places 0 to 127.
pub const PLACES: usize = 128;
/// The most bytes that a name in a table has.
pub const NAME: usize = 28;

const ITEM: usize = 32;
const ENTRIES: usize = 4096;

/// What a record is, by its dirent type number.
#[derive(Clone, Copy, PartialEq, Eq, PartialOrd, Ord, Hash, Debug)]
#[repr(u8)]
pub enum Kind {
    Fifo = 1,
    Character = 2,
    Directory = 4,
    Block = 6,
    Regular = 8,
    Symlink = 10,
    Socket = 12,
}

impl Kind {
    /// Every kind, by rising number.
    pub const ALL: [Kind; 7] = [Kind::Fifo, Kind::Character, Kind::Directory, Kind::Block, Kind::Regular, Kind::Symlink, Kind::Socket];

    /// The kind with this dirent type number.
    pub fn of(number: u32) -> Option<Kind> {
        Kind::ALL.into_iter().find(|k| k.number() == number)
    }

    /// The dirent type number.
    pub fn number(self) -> u32 {
        self as u32
    }

    /// The word of docs/TEXT.md.
    pub fn word(self) -> &'static str {
        match self {
            Kind::Fifo => "fifo",
            Kind::Character => "character",
            Kind::Directory => "directory",
            Kind::Block => "block",
            Kind::Regular => "regular",
            Kind::Symlink => "symlink",
            Kind::Socket => "socket",
        }
    }
}

/// A record: what a name stands for in one layer.
#[derive(Clone, PartialEq, Eq, Hash, Debug)]
pub struct Record {
    pub kind: Kind,
    pub permissions: u16,
    pub device: u64,
    pub size: u64,
    /// The number that stands for the bytes.
    pub content: u64,
    pub opaque: bool,
}

impl Record {
    /// A record of this kind and these permissions; all else is 0.
    pub fn new(kind: Kind, permissions: u16) -> Record {
        Record { kind, permissions, device: 0, size: 0, content: 0, opaque: false }
    }

    /// A character device with device number 0.
    pub fn is_whiteout(&self) -> bool {
        self.kind == Kind::Character && self.device == 0
    }
}

/// An entry: the name that a directory has for a record.
#[derive(Clone, PartialEq, Eq, Hash, Debug)]
pub struct Entry {
    pub parent: u8,
    pub child: u8,
    pub name: Vec<u8>,
}

/// One layer's table, 8192 bytes. Any bytes are a table; whether they keep document 01's rules is import's to say.
#[derive(Clone, PartialEq, Eq, Hash)]
pub struct Table(Box<[u8; TABLE]>);

impl Table {
    /// A table whose places are all free. It has no root yet, so import refuses it.
    pub fn empty() -> Table {
        Table(Box::new([0; TABLE]))
    }

    /// The table with these bytes, where there are 8192.
    pub fn from_bytes(bytes: &[u8]) -> Option<Table> {
        Some(Table(Box::new(bytes.try_into().ok()?)))
    }

    pub fn bytes(&self) -> &[u8] {
        &self.0[..]
    }

    /// The record at a place from 1 to 128; none where the place is free or its kind byte is no kind.
    pub fn record(&self, place: usize) -> Option<Record> {
        let b = self.record_bytes(place)?;
        let kind = Kind::of(b[1].into())?;
        let [device, size, content] = [8, 16, 24].map(|at| u64_at(b, at));
        (b[0] != 0).then(|| Record { kind, permissions: u16_at(b, 4), device, size, content, opaque: b[2] == 1 })
    }

    /// The entry at a place from 0 to 127; none where the place is free.
    pub fn entry(&self, place: usize) -> Option<Entry> {
        let b = self.entry_bytes(place)?;
        let length = usize::from(b[2]).min(NAME);
        (b[0] != 0).then(|| Entry { parent: b[0], child: b[1], name: b[4..4 + length].to_vec() })
    }

    /// The records in order of their places.
    pub fn records(&self) -> impl Iterator<Item = (usize, Record)> {
        (1..=PLACES).filter_map(|i| Some((i, self.record(i)?)))
    }

    /// The entries in order of their places.
    pub fn entries(&self) -> impl Iterator<Item = (usize, Entry)> {
        (0..PLACES).filter_map(|j| Some((j, self.entry(j)?)))
    }

    /// Puts a record at a place from 1 to 128, and panics where the place is another.
    pub fn put_record(&mut self, place: usize, r: &Record) {
        let mut b = [0; ITEM];
        b[0] = place as u8;
        b[1] = r.kind as u8;
        b[2] = r.opaque.into();
        b[4..6].copy_from_slice(&r.permissions.to_le_bytes());
        b[8..16].copy_from_slice(&r.device.to_le_bytes());
        b[16..24].copy_from_slice(&r.size.to_le_bytes());
        b[24..32].copy_from_slice(&r.content.to_le_bytes());
        self.record_item(place).copy_from_slice(&b);
    }

    /// Puts an entry at a place from 0 to 127, and panics where the place is another or the name has over 28 bytes.
    pub fn put_entry(&mut self, place: usize, e: &Entry) {
        let n = e.name.len();
        assert!(n <= NAME, "a name in a table has at most {NAME} bytes, not {n}");
        let mut b = [0; ITEM];
        b[..3].copy_from_slice(&[e.parent, e.child, n as u8]);
        b[4..4 + n].copy_from_slice(&e.name);
        self.entry_item(place).copy_from_slice(&b);
    }

    /// Frees a record's place.
    pub fn clear_record(&mut self, place: usize) {
        self.record_item(place).fill(0);
    }

    /// Frees an entry's place.
    pub fn clear_entry(&mut self, place: usize) {
        self.entry_item(place).fill(0);
    }

    pub(crate) fn bytes_mut(&mut self) -> &mut [u8] {
        &mut self.0[..]
    }

    pub(crate) fn record_bytes(&self, place: usize) -> Option<&[u8]> {
        (1..=PLACES).contains(&place).then(|| &self.0[record_offset(place)..][..ITEM])
    }

    pub(crate) fn entry_bytes(&self, place: usize) -> Option<&[u8]> {
        (place < PLACES).then(|| &self.0[entry_offset(place)..][..ITEM])
    }

    pub(crate) fn record_item(&mut self, place: usize) -> &mut [u8] {
        assert!((1..=PLACES).contains(&place), "a record's place is 1 to {PLACES}, not {place}");
        &mut self.0[record_offset(place)..][..ITEM]
    }

    pub(crate) fn entry_item(&mut self, place: usize) -> &mut [u8] {
        assert!(place < PLACES, "an entry's place is 0 to 127, not {place}");
        &mut self.0[entry_offset(place)..][..ITEM]
    }
}

/// Where the bytes of a record's place start.
pub(crate) fn record_offset(place: usize) -> usize {
    ITEM * (place - 1)
}

/// Where the bytes of an entry's place start.
pub(crate) fn entry_offset(place: usize) -> usize {
    ENTRIES + ITEM * place
}

/// The lines of docs/TEXT.md.
impl fmt::Debug for Table {
    fn fmt(&self, f: &mut fmt::Formatter<'_>) -> fmt::Result {
        f.write_str(&crate::text::print(self))
    }
}
