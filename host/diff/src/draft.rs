//! A layer's table put together record by record, within document 01's rules.

use crate::call::Name;
use overlay::{Entry, Kind, Record, Table};
use std::collections::HashSet;

/// The most steps from a directory to the root.
pub const DEPTH: usize = 16;
/// The permissions of the roots, and of what needs none of its own.
pub const PERMISSIONS: u16 = 0o755;

/// A table, and which of its places are free.
pub struct Draft {
    table: Table,
    /// Free places, the next to take the last.
    records: Vec<usize>,
    entries: Vec<usize>,
    names: HashSet<(u8, Name)>,
    /// The directories with their steps to the root, and all other records.
    pub directories: Vec<(u8, usize)>,
    pub others: Vec<u8>,
}

/// A character device with device number 0.
pub fn whiteout() -> Record {
    Record::new(Kind::Character, 0)
}

/// A directory, opaque or not.
pub fn directory(opaque: bool) -> Record {
    Record { opaque, ..Record::new(Kind::Directory, PERMISSIONS) }
}

impl Draft {
    /// A table with its root alone; places are taken from the lowest on.
    pub fn new(root: &Record) -> Draft {
        Draft::with_places(root, (2..=128).rev().collect(), (0..128).rev().collect())
    }

    /// The same, the places after the root's being taken in the order given, the last first.
    pub fn with_places(root: &Record, records: Vec<usize>, entries: Vec<usize>) -> Draft {
        let mut table = Table::empty();
        table.put_record(1, root);
        Draft { table, records, entries, names: HashSet::new(), directories: vec![(1, 0)], others: Vec::new() }
    }

    pub fn free_records(&self) -> usize {
        self.records.len()
    }

    pub fn free_entries(&self) -> usize {
        self.entries.len()
    }

    /// Adds a record under a name; none where the name is taken, a place is missing or a directory would lie too deep.
    pub fn add(&mut self, parent: u8, name: &[u8], record: &Record) -> Option<u8> {
        let depth = 1 + self.directories.iter().find(|(place, _)| *place == parent)?.1;
        let is_directory = record.kind == Kind::Directory;
        if self.records.is_empty() || (is_directory && depth > DEPTH) {
            return None;
        }
        let place = *self.records.last()?;
        self.name(parent, name, place as u8)?;
        self.records.pop();
        self.table.put_record(place, record);
        match is_directory {
            true => self.directories.push((place as u8, depth)),
            false => self.others.push(place as u8),
        }
        Some(place as u8)
    }

    /// One more name for a record that is no directory.
    pub fn share(&mut self, parent: u8, name: &[u8], child: u8) -> Option<()> {
        if self.others.contains(&child) { self.name(parent, name, child) } else { None }
    }

    fn name(&mut self, parent: u8, name: &[u8], child: u8) -> Option<()> {
        if self.entries.is_empty() || !self.names.insert((parent, name.to_vec())) {
            return None;
        }
        let place = self.entries.pop()?;
        self.table.put_entry(place, &Entry { parent, child, name: name.to_vec() });
        Some(())
    }

    pub fn record(&self, place: u8) -> Option<Record> {
        self.table.record(place.into())
    }

    pub fn table(self) -> Table {
        self.table
    }
}
