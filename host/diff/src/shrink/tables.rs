//! Smaller tables that still keep document 01's rules.

use crate::call::{Call, Name, Target};
use crate::case::Case;
use crate::draft::PERMISSIONS;
use overlay::{Entry, Kind, Record, Table};
use std::collections::BTreeSet;
use std::ops::Range;
use std::rc::Rc;

fn table(case: &mut Case, layer: u8) -> Option<&mut Table> {
    Rc::make_mut(&mut case.layers).table_mut(layer)
}

/// The case without these entries of a layer; none where there is no such entry.
pub fn without_entries(case: &Case, layer: u8, places: Range<usize>) -> Option<Case> {
    let mut case = case.clone();
    let table = table(&mut case, layer)?;
    let before = table.clone();
    for place in places {
        drop_entry(table, place);
    }
    (*table != before).then_some(case)
}

/// Takes an entry away, its record with the last entry that names it, and a directory with all that is below.
fn drop_entry(table: &mut Table, place: usize) {
    let Some(entry) = table.entry(place) else { return };
    table.clear_entry(place);
    if table.entries().any(|(_, e)| e.child == entry.child) {
        return;
    }
    table.clear_record(entry.child.into());
    let below: Vec<usize> = table.entries().filter(|(_, e)| e.parent == entry.child).map(|(place, _)| place).collect();
    below.into_iter().for_each(|place| drop_entry(table, place));
}

/// The case with the root's directory of this name gone in every layer, and what it has in the root; none where no layer has it.
pub fn hoisted(case: &Case, name: &[u8]) -> Option<Case> {
    let mut case = case.clone();
    let layers = Rc::make_mut(&mut case.layers).tables_mut();
    if layers.map(|t| hoist(t, name)).filter(|hoisted| *hoisted).count() == 0 {
        return None;
    }
    let below = |target: &Target| match target {
        Target::Path(path) if path.first().is_some_and(|first| first == name) => Some(Target::Path(path[1..].to_vec())),
        other => Some(other.clone()),
    };
    case.calls = case.calls.iter().filter_map(|call| call.renamed(below)).collect();
    Some(case)
}

/// A name that is no directory goes, as does one that the root has already.
fn hoist(table: &mut Table, name: &[u8]) -> bool {
    let Some((place, entry)) = table.entries().find(|(_, e)| e.parent == 1 && e.name == name) else { return false };
    if table.record(entry.child.into()).is_none_or(|r| r.kind != Kind::Directory) {
        drop_entry(table, place);
        return false;
    }
    let below: Vec<(usize, Entry)> = table.entries().filter(|(_, e)| e.parent == entry.child).collect();
    for (place, e) in below {
        let taken = table.entries().any(|(_, other)| other.parent == 1 && other.name == e.name);
        match taken {
            true => drop_entry(table, place),
            false => table.put_entry(place, &Entry { parent: 1, ..e }),
        }
    }
    drop_entry(table, place);
    true
}

/// The case with one record made plainer: without its opaque mark, or with permissions and numbers that say nothing.
pub fn plainer(case: &Case, layer: u8, place: usize) -> Vec<Case> {
    let with = |record: Record| {
        let mut case = case.clone();
        table(&mut case, layer)?.put_record(place, &record);
        Some(case)
    };
    let Some(record) = case.layers.table(layer).and_then(|t| t.record(place)) else { return Vec::new() };
    let permissions = match record.kind {
        Kind::Directory => PERMISSIONS,
        Kind::Regular => 0o644,
        Kind::Symlink => 511,
        _ => 0,
    };
    let plain = Record { permissions, size: 0, content: 0, ..record.clone() };
    let candidates = [Record { opaque: false, ..record.clone() }, plain];
    candidates.into_iter().filter(|r| *r != record).filter_map(with).collect()
}

/// The case with every table's records and entries at its lowest places.
pub fn packed(case: &Case) -> Case {
    let mut case = case.clone();
    Rc::make_mut(&mut case.layers).tables_mut().for_each(|t| *t = pack(t));
    case
}

fn pack(table: &Table) -> Table {
    let mut to = [0u8; 256];
    let mut packed = Table::empty();
    for (next, (place, record)) in (1..).zip(table.records()) {
        to[place] = next as u8;
        packed.put_record(next, &record);
    }
    for (next, (_, e)) in table.entries().enumerate() {
        packed.put_entry(next, &Entry { parent: to[usize::from(e.parent)], child: to[usize::from(e.child)], name: e.name });
    }
    packed
}

/// Every name of the tables and the calls.
pub fn names(case: &Case) -> BTreeSet<Name> {
    let tables = case.layers.upper.iter().chain(&case.layers.lower);
    let calls = case.calls.iter().flat_map(|c| c.name().into_iter().map(<[u8]>::to_vec).chain(path(c)));
    tables.flat_map(|t| t.entries().map(|(_, e)| e.name).collect::<Vec<_>>()).chain(calls).collect()
}

/// The names of over one byte.
pub fn long_names(case: &Case) -> Vec<Name> {
    names(case).into_iter().filter(|name| name.len() > 1).collect()
}

fn path(call: &Call<Target>) -> Vec<Name> {
    match call.about() {
        Some(Target::Path(path)) => path.clone(),
        _ => Vec::new(),
    }
}

/// The case with one name written otherwise everywhere.
pub fn renamed(case: &Case, from: &[u8], to: &[u8]) -> Case {
    let mut case = case.clone();
    for table in Rc::make_mut(&mut case.layers).tables_mut() {
        let named: Vec<(usize, Entry)> = table.entries().filter(|(_, e)| e.name == from).collect();
        named.into_iter().for_each(|(place, e)| table.put_entry(place, &Entry { name: to.to_vec(), ..e }));
    }
    let swap = |name: &Name| if name == from { to.to_vec() } else { name.clone() };
    case.calls = case.calls.iter().map(|call| renamed_call(call, swap)).collect();
    case
}

fn renamed_call(call: &Call<Target>, swap: impl Fn(&Name) -> Name) -> Call<Target> {
    let mut call = call
        .renamed(|target| match target {
            Target::Path(path) => Some(Target::Path(path.iter().map(&swap).collect())),
            Target::Number(number) => Some(Target::Number(*number)),
        })
        .expect("every target is kept");
    if let Call::Lookup { name, .. }
    | Call::Mknod { name, .. }
    | Call::Create { name, .. }
    | Call::Symlink { name, .. }
    | Call::Link { name, .. } = &mut call
    {
        *name = swap(name);
    }
    call
}
