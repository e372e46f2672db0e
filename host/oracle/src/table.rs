//! A layer's table in the bytes of docs/ABI.md, with the changes that a file system makes to it.

use libc::{EEXIST, ENAMETOOLONG, ENOENT, ENOSPC, ENOTDIR, EPERM};

/// The bytes of a layer's table.
pub const TABLE: usize = 8192;
const ITEM: usize = 32;
const ENTRIES: usize = 4096;
const NAME: usize = 28;

pub const CHARACTER: u8 = 2;
pub const DIRECTORY: u8 = 4;
pub const REGULAR: u8 = 8;
pub const SYMLINK: u8 = 10;

/// A record without its number.
#[derive(Clone, Copy)]
pub struct Record {
    pub kind: u8,
    pub opaque: bool,
    pub permissions: u16,
    pub device: u64,
    pub size: u64,
    pub content: u64,
}

impl Record {
    /// A new record; size and content are 0, and it is not opaque.
    pub fn new(kind: u8, permissions: u16, device: u64) -> Record {
        Record { kind, opaque: false, permissions, device, size: 0, content: 0 }
    }

    /// A character device with device number 0.
    pub fn is_whiteout(&self) -> bool {
        self.kind == CHARACTER && self.device == 0
    }
}

/// The table. Only the entry places up to the last used one are looked at, and a name is compared only where its key is the same, so that
/// the layer's share in the Rust's time stays small.
pub struct Table {
    bytes: Box<[u8; TABLE]>,
    keys: [u32; 128],
    used: usize,
}

impl Table {
    /// The table with these bytes; they may break document 01's rules.
    pub fn of(bytes: &[u8]) -> Table {
        let bytes: [u8; TABLE] = bytes.try_into().unwrap_or_else(|_| panic!("a layer's table has {TABLE} bytes, not {}", bytes.len()));
        let mut keys = [0; 128];
        let mut used = 0;
        for (j, e) in bytes[ENTRIES..].chunks_exact(ITEM).enumerate().filter(|(_, e)| e[0] != 0) {
            keys[j] = key(e[0].into(), name_of(e));
            used = j + 1;
        }
        Table { bytes: Box::new(bytes), keys, used }
    }

    pub fn bytes(&self) -> &[u8] {
        &self.bytes[..]
    }

    /// The record with this number, ENOENT where its place is free or there is none.
    pub fn record(&self, number: u64) -> Result<Record, i32> {
        let at = record_offset(number)?;
        let b = &self.bytes[at..at + ITEM];
        if b[0] == 0 {
            return Err(ENOENT);
        }
        let word = |at: usize| u64::from_le_bytes(b[at..at + 8].try_into().expect("8 bytes"));
        let permissions = u16::from_le_bytes([b[4], b[5]]);
        Ok(Record { kind: b[1], opaque: b[2] == 1, permissions, device: word(8), size: word(16), content: word(24) })
    }

    /// Puts a record at its number's place.
    pub fn put_record(&mut self, number: u64, r: &Record) -> Result<(), i32> {
        let at = record_offset(number)?;
        let mut b = [0; ITEM];
        b[..3].copy_from_slice(&[number as u8, r.kind, r.opaque.into()]);
        b[4..6].copy_from_slice(&r.permissions.to_le_bytes());
        b[8..16].copy_from_slice(&r.device.to_le_bytes());
        b[16..24].copy_from_slice(&r.size.to_le_bytes());
        b[24..].copy_from_slice(&r.content.to_le_bytes());
        self.bytes[at..at + ITEM].copy_from_slice(&b);
        Ok(())
    }

    /// The record that a directory has under a name.
    pub fn child(&self, parent: u64, name: &[u8]) -> Result<u64, i32> {
        self.test_name(parent, name)?;
        let j = self.place(parent, name).ok_or(ENOENT)?;
        Ok(self.bytes[ENTRIES + ITEM * j + 1].into())
    }

    /// The entries of a directory from a place on: place, record and name.
    pub fn children(&self, parent: u64, from: u64) -> impl Iterator<Item = (u64, u64, &[u8])> {
        let named = self.entries().enumerate().skip(from as usize).filter(move |(_, e)| u64::from(e[0]) == parent);
        named.map(|(j, e)| (j as u64, e[1].into(), name_of(e)))
    }

    /// Makes a record under a name, both in the lowest free places, and answers its number.
    pub fn make(&mut self, parent: u64, name: &[u8], r: &Record) -> Result<u64, i32> {
        self.test_new(parent, name)?;
        let number = (1..=128).find(|n| self.record(*n).is_err()).ok_or(ENOSPC)?;
        self.put_entry(parent, name, number)?;
        self.put_record(number, r)?;
        Ok(number)
    }

    /// Names a record once more.
    pub fn link(&mut self, number: u64, parent: u64, name: &[u8]) -> Result<(), i32> {
        if self.record(number)?.kind == DIRECTORY {
            return Err(EPERM);
        }
        self.test_new(parent, name)?;
        self.put_entry(parent, name, number)
    }

    /// Takes a name away, and its record with the last entry that names it.
    pub fn take(&mut self, parent: u64, name: &[u8]) -> Result<(), i32> {
        let child = self.child(parent, name)?;
        let j = self.place(parent, name).ok_or(ENOENT)?;
        self.bytes[ENTRIES + ITEM * j..][..ITEM].fill(0);
        if !self.entries().any(|e| e[0] != 0 && u64::from(e[1]) == child) {
            let at = record_offset(child)?;
            self.bytes[at..at + ITEM].fill(0);
        }
        Ok(())
    }

    /// A name is looked for in a directory, and has at most 28 bytes.
    fn test_name(&self, parent: u64, name: &[u8]) -> Result<(), i32> {
        if self.record(parent)?.kind != DIRECTORY {
            return Err(ENOTDIR);
        }
        if name.len() > NAME {
            return Err(ENAMETOOLONG);
        }
        Ok(())
    }

    /// A new name is in a directory, short enough and not there yet; "." and ".." are in every directory.
    fn test_new(&self, parent: u64, name: &[u8]) -> Result<(), i32> {
        self.test_name(parent, name)?;
        match name == b"." || name == b".." || self.place(parent, name).is_some() {
            true => Err(EEXIST),
            false => Ok(()),
        }
    }

    /// Puts an entry at the lowest free place.
    fn put_entry(&mut self, parent: u64, name: &[u8], child: u64) -> Result<(), i32> {
        let j = self.entries().position(|e| e[0] == 0).unwrap_or(self.used);
        if j == 128 {
            return Err(ENOSPC);
        }
        let mut e = [0; ITEM];
        e[..3].copy_from_slice(&[parent as u8, child as u8, name.len() as u8]);
        e[4..4 + name.len()].copy_from_slice(name);
        self.bytes[ENTRIES + ITEM * j..][..ITEM].copy_from_slice(&e);
        self.keys[j] = key(parent, name);
        self.used = self.used.max(j + 1);
        Ok(())
    }

    fn place(&self, parent: u64, name: &[u8]) -> Option<usize> {
        let key = key(parent, name);
        let same = |e: &[u8]| u64::from(e[0]) == parent && name_of(e) == name;
        self.keys.iter().zip(self.entries()).position(|(k, e)| *k == key && same(e))
    }

    fn entries(&self) -> std::slice::ChunksExact<'_, u8> {
        self.bytes[ENTRIES..ENTRIES + ITEM * self.used].chunks_exact(ITEM)
    }
}

/// Where a record's bytes start; records are numbered from 1 to 128.
fn record_offset(number: u64) -> Result<usize, i32> {
    match number {
        1..=128 => Ok(ITEM * (number as usize - 1)),
        _ => Err(ENOENT),
    }
}

/// As many of the 28 bytes as the length says, all 28 where that is more.
fn name_of(entry: &[u8]) -> &[u8] {
    &entry[4..4 + NAME.min(entry[2].into())]
}

/// Entries of one parent and name have one key.
fn key(parent: u64, name: &[u8]) -> u32 {
    name.iter().fold(parent as u32, |k, b| (k ^ u32::from(*b)).wrapping_mul(0x0100_0193))
}
