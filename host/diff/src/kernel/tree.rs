//! A tree of names: what a mount shows, and what a side lists.

use crate::call::{Call, Name};
use crate::case::Layers;
use crate::side::{Answer, ROOT, Side};
use overlay::{Kind, Record, Table};
use std::collections::BTreeMap;
use std::fs;
use std::io;
use std::os::unix::ffi::OsStrExt;
use std::os::unix::fs::{FileTypeExt, MetadataExt};
use std::path::Path;

/// What stands at a path.
#[derive(Clone, PartialEq, Eq, Debug)]
pub struct Item {
    pub kind: Kind,
    pub permissions: u32,
    pub device: u64,
    /// A file's bytes, a symlink's target.
    pub bytes: Vec<u8>,
}

/// Every path below the root, and the root itself.
pub type Tree = BTreeMap<Vec<Name>, Item>;

/// The kind's bits in a file's mode: the dirent type number 12 bits up.
pub fn mode_kind(kind: Kind) -> u32 {
    kind.number() << 12
}

/// A regular file's bytes: its size and its content number.
pub fn token(record: &Record) -> Vec<u8> {
    [record.size.to_le_bytes(), record.content.to_le_bytes()].concat()
}

impl Item {
    fn of_record(record: &Record) -> Item {
        let bytes = match record.kind {
            Kind::Regular => token(record),
            Kind::Symlink => record.content.to_string().into_bytes(),
            _ => Vec::new(),
        };
        Item { kind: record.kind, permissions: record.permissions.into(), device: record.device, bytes }
    }

    fn of_path(path: &Path) -> io::Result<Item> {
        let meta = fs::symlink_metadata(path)?;
        let kind = Kind::of(meta.mode() >> 12).ok_or(io::Error::other("a file of no kind"))?;
        let bytes = match kind {
            Kind::Regular => fs::read(path)?,
            Kind::Symlink => fs::read_link(path)?.as_os_str().as_bytes().to_vec(),
            _ => Vec::new(),
        };
        let kind_type = meta.file_type();
        let is_device = kind_type.is_block_device() || kind_type.is_char_device();
        Ok(Item { kind, permissions: meta.mode() & 0o7777, device: if is_device { meta.rdev() } else { 0 }, bytes })
    }
}

/// The tree below a folder, and how many names were listed that a lookup then refused: those are no part of the tree.
pub fn kernel_tree(folder: &Path) -> io::Result<(Tree, usize)> {
    let mut tree = Tree::from([(Vec::new(), Item::of_path(folder)?)]);
    let mut refused = 0;
    let mut next = vec![Vec::new()];
    while let Some(path) = next.pop() {
        let at = path.iter().fold(folder.to_path_buf(), |at, name: &Name| at.join(std::ffi::OsStr::from_bytes(name)));
        for entry in fs::read_dir(&at)? {
            let name = entry?.file_name();
            let item = match Item::of_path(&at.join(&name)) {
                Err(e) if e.kind() == io::ErrorKind::NotFound => {
                    refused += 1;
                    continue;
                }
                item => item?,
            };
            let path: Vec<Name> = path.iter().cloned().chain([name.as_bytes().to_vec()]).collect();
            if item.kind == Kind::Directory {
                next.push(path.clone());
            }
            tree.insert(path, item);
        }
    }
    Ok((tree, refused))
}

/// The bytes that hold any directory's whole listing.
const WHOLE: usize = 16384;

/// The tree that a side lists, walked by listing, lookup and node; the top records are read from the tables. None where the names are
/// more than the side has nodes for.
pub fn side_tree(side: &mut dyn Side, layers: &Layers) -> Result<Option<Tree>, String> {
    let mut tree = Tree::new();
    let mut next = vec![(Vec::new(), ROOT)];
    // No call of the walk writes it.
    let upper = side.standing().upper;
    while let Some((path, number)) = next.pop() {
        let record = top(side, number, upper.as_ref(), layers)?;
        if record.kind == Kind::Directory {
            let listed = match side.call(&Call::List { node: number, offset: 0, size: WHOLE as u64, buffer: WHOLE }) {
                Answer::Page(page) => page.entries,
                Answer::Refused(23) => return Ok(None),
                answer => return Err(format!("listing of node {number}: {answer}")),
            };
            for name in listed.into_iter().map(|d| d.name).filter(|name| name != b"." && name != b"..") {
                let child = match side.call(&Call::Lookup { parent: number, name: name.clone() }) {
                    Answer::Node(child) => child,
                    answer => return Err(format!("lookup of the listed `{}` in node {number}: {answer}", overlay::text::name(&name))),
                };
                next.push((path.iter().cloned().chain([name]).collect(), child));
            }
        }
        tree.insert(path, Item::of_record(&record));
    }
    Ok(Some(tree))
}

fn top(side: &mut dyn Side, number: u64, upper: Option<&Table>, layers: &Layers) -> Result<Record, String> {
    let Answer::Seen(view) = side.call(&Call::Node { node: number }) else { return Err(format!("node {number} is not known")) };
    let first = *view.stack.first().ok_or(format!("node {number} has no record"))?;
    let record = upper.filter(|_| first.0 == 0).map_or_else(|| layers.record(first), |table| table.record(first.1.into()));
    record.ok_or(format!("node {number}: no record {} in layer {}", first.1, first.0))
}

/// The first path that the trees have otherwise, in words.
pub fn difference(ours: &Tree, kernel: &Tree) -> Option<String> {
    let paths = ours.keys().chain(kernel.keys());
    let path = paths.into_iter().find(|path| ours.get(*path) != kernel.get(*path))?;
    let said: Vec<String> = path.iter().map(|name| overlay::text::name(name)).collect();
    let item = |tree: &Tree| tree.get(path).map_or("nothing".to_string(), |item| format!("{item:?}"));
    Some(format!("/{}: {} here, {} in the mount", said.join("/"), item(ours), item(kernel)))
}
