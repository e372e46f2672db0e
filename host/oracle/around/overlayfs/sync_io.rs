//! The driver. As a child of the text's module it calls the private functions directly, in the place of the crate's entry points of this
//! name, which are not given.

#[path = "view.rs"]
mod view;

use super::{Arc, CString, Config, Context, CreateIn, Mutex, Ordering, OverlayFs, OverlayInode};
use crate::answers::Listed;
use crate::layer::TestLayer;
use crate::table::Table;
use std::borrow::Cow;
use std::io;

/// The Rust text's overlay over a test layer that holds document 01's tables. Node numbers are the Rust's own; a refusal is its errno, and
/// 5 (EIO) where its error has no number, as the crate says it to the kernel.
pub struct Oracle {
    fs: OverlayFs,
    upper: Option<Arc<Mutex<Table>>>,
}

type Answer<T> = Result<T, i32>;

impl Oracle {
    /// `OverlayFs::import` of these tables of 8192 bytes, the topmost lower one first; panics where one has another length.
    pub fn import(upper: Option<&[u8]>, lower: &[&[u8]]) -> Answer<Oracle> {
        let shared = |bytes: &[u8]| Arc::new(Mutex::new(Table::of(bytes)));
        let layer = |table: Arc<Mutex<Table>>| -> Arc<super::BoxedLayer> { Arc::new(Box::new(TestLayer(table))) };
        let upper = upper.map(shared);
        let lower = lower.iter().map(|bytes| layer(shared(bytes))).collect();
        let fs = OverlayFs::new(upper.clone().map(layer), lower, Config::default()).map_err(number)?;
        fs.import().map_err(number)?;
        Ok(Oracle { fs, upper })
    }

    /// `do_lookup`.
    pub fn lookup(&self, parent: u64, name: &[u8]) -> Answer<u64> {
        Ok(self.fs.do_lookup(&Context::default(), parent, &text(name)).map_err(number)?.inode)
    }

    /// `load_directory`.
    pub fn load(&self, node: u64) -> Answer<()> {
        self.fs.load_directory(&Context::default(), &self.node(node)?).map_err(number)
    }

    /// `count_entries_and_whiteout`: live and whiteout children; it does not load first.
    pub fn count(&self, node: u64) -> Answer<(u64, u64)> {
        self.node(node)?.count_entries_and_whiteout(&Context::default()).map_err(number)
    }

    /// `do_readdir` of the whole directory, "." and ".." included, in the order of the Rust's hash map.
    pub fn list(&self, node: u64) -> Answer<Vec<Listed>> {
        let mut listed = vec![];
        let mut add = |d: super::DirEntry, _: Option<super::Entry>| {
            listed.push(Listed { inode: d.ino, kind: d.type_, name: d.name.to_vec() });
            Ok(1)
        };
        self.fs.do_readdir(&Context::default(), node, 0, u32::MAX, 0, false, &mut add).map_err(number)?;
        Ok(listed)
    }

    /// `do_readdir` of the whole directory with a callback that only counts, for measures of the Rust alone.
    pub fn list_count(&self, node: u64) -> Answer<usize> {
        let mut count = 0;
        let mut add = |_: super::DirEntry, _: Option<super::Entry>| {
            count += 1;
            Ok(1)
        };
        self.fs.do_readdir(&Context::default(), node, 0, u32::MAX, 0, false, &mut add).map_err(number)?;
        Ok(count)
    }

    /// `forget_one`.
    pub fn forget(&self, node: u64, amount: u64) {
        self.fs.forget_one(node, amount);
    }

    /// `do_mknod`; the kind is a dirent type number. What the Rust's mode and device of 32 bits have no place for gives 22.
    pub fn mknod(&self, parent: u64, name: &[u8], kind: u32, permissions: u32, umask: u32, device: u64) -> Answer<u64> {
        let parent = self.node(parent)?;
        let (0..=15, 0..=0o7777, Ok(device)) = (kind, permissions, u32::try_from(device)) else { return Err(libc::EINVAL) };
        let mode = kind << 12 | permissions;
        self.fs.do_mknod(&Context::default(), &parent, &text(name), mode, device, umask).map_err(number)?;
        made(&parent, name)
    }

    /// `do_create`.
    pub fn create(&self, parent: u64, name: &[u8], permissions: u32, umask: u32) -> Answer<u64> {
        let parent = self.node(parent)?;
        let args = CreateIn { flags: libc::O_RDWR as u32, mode: permissions, umask, fuse_flags: 0 };
        self.fs.do_create(&Context::default(), &parent, &text(name), args).map_err(number)?;
        made(&parent, name)
    }

    /// `do_symlink`, to a target that is the content number in decimal digits.
    pub fn symlink(&self, parent: u64, name: &[u8], content: u64) -> Answer<u64> {
        let parent = self.node(parent)?;
        self.fs.do_symlink(&Context::default(), &content.to_string(), &parent, &text(name)).map_err(number)?;
        made(&parent, name)
    }

    /// `do_link`.
    pub fn link(&self, source: u64, parent: u64, name: &[u8]) -> Answer<u64> {
        let (source, parent) = (self.node(source)?, self.node(parent)?);
        self.fs.do_link(&Context::default(), &source, &parent, &text(name)).map_err(number)?;
        made(&parent, name)
    }

    /// `copy_node_up`. The tests before it (no upper layer 30, a whiteout 2) are the driver's: in the Rust they stand in its callers.
    pub fn copy_up(&self, node: u64) -> Answer<()> {
        let node = self.node(node)?;
        if self.fs.upper_layer.is_none() {
            return Err(libc::EROFS);
        }
        if node.whiteout.load(Ordering::Relaxed) {
            return Err(libc::ENOENT);
        }
        self.fs.copy_node_up(&Context::default(), node).map(|_| ()).map_err(number)
    }

    /// `do_mkdir`.
    pub fn mkdir(&self, parent: u64, name: &[u8], permissions: u32, umask: u32) -> Answer<u64> {
        let parent = self.node(parent)?;
        self.fs.do_mkdir(&Context::default(), &parent, &text(name), permissions, umask).map_err(number)?;
        made(&parent, name)
    }

    /// `do_rm`, of a directory or of anything else.
    pub fn remove(&self, parent: u64, name: &[u8], directory: bool) -> Answer<()> {
        let name = CString::new(name).map_err(|_| libc::EINVAL)?;
        self.fs.do_rm(&Context::default(), parent, &name, directory).map_err(number)
    }

    /// The upper layer as a table of 8192 bytes.
    pub fn upper(&self) -> Option<Vec<u8>> {
        let table = self.upper.as_ref()?.lock().expect("a call on the upper layer panicked before");
        Some(table.bytes().to_vec())
    }

    fn node(&self, node: u64) -> Answer<Arc<OverlayInode>> {
        self.fs.get_active_inode(node).ok_or(libc::ENOENT)
    }
}

/// A name as the crate's entry points read it.
fn text(name: &[u8]) -> Cow<'_, str> {
    String::from_utf8_lossy(name)
}

fn number(e: io::Error) -> i32 {
    e.raw_os_error().unwrap_or(libc::EIO)
}

/// The node that a creation left under its name; it counts no lookup.
fn made(parent: &OverlayInode, name: &[u8]) -> Answer<u64> {
    parent.child(&text(name)).map(|node| node.inode).ok_or(libc::ENOENT)
}
