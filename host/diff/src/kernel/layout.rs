//! A layer's table laid out as a folder: whiteouts are character devices 0/0, opaque marks the kernel's attribute, shared records hard
//! links.

use super::sys;
use super::tree::{mode_kind, token};
use overlay::{Kind, Record, Table};
use std::collections::HashMap;
use std::ffi::OsStr;
use std::fs::{self, Permissions};
use std::io;
use std::os::unix::ffi::OsStrExt;
use std::os::unix::fs::{PermissionsExt, symlink};
use std::path::{Path, PathBuf};

struct Layout<'a> {
    table: &'a Table,
    /// Where a record that is no directory was first laid.
    laid: HashMap<u8, PathBuf>,
}

/// Lays a table out in a folder that is empty.
pub fn lay_out(table: &Table, folder: &Path) -> io::Result<()> {
    let mut layout = Layout { table, laid: HashMap::new() };
    layout.directory(1, folder)
}

impl Layout<'_> {
    /// The entries first, since the permissions may be none.
    fn directory(&mut self, place: u8, folder: &Path) -> io::Result<()> {
        for (_, entry) in self.table.entries().filter(|(_, e)| e.parent == place) {
            self.entry(entry.child, &folder.join(OsStr::from_bytes(&entry.name)))?;
        }
        let record = self.record(place)?;
        if record.opaque {
            sys::set_attribute(folder, c"trusted.overlay.opaque", b"y")?;
        }
        set_permissions(folder, record.permissions)
    }

    fn entry(&mut self, place: u8, path: &Path) -> io::Result<()> {
        if let Some(first) = self.laid.get(&place) {
            return fs::hard_link(first, path);
        }
        let record = self.record(place)?;
        if record.kind == Kind::Directory {
            fs::create_dir(path)?;
            return self.directory(place, path);
        }
        self.laid.insert(place, path.to_path_buf());
        lay_file(&record, path)
    }

    fn record(&self, place: u8) -> io::Result<Record> {
        self.table.record(place.into()).ok_or(io::Error::other("the table names a record that it does not have"))
    }
}

fn set_permissions(path: &Path, permissions: u16) -> io::Result<()> {
    fs::set_permissions(path, Permissions::from_mode(permissions.into()))
}

/// What is no directory. A file's bytes are written before its permissions, which may forbid it.
pub fn lay_file(record: &Record, path: &Path) -> io::Result<()> {
    match record.kind {
        Kind::Symlink => return symlink(record.content.to_string(), path),
        Kind::Regular => fs::File::create_new(path).and_then(|mut file| io::Write::write_all(&mut file, &token(record)))?,
        kind => sys::make_node(path, mode_kind(kind) | 0o600, record.device)?,
    }
    set_permissions(path, record.permissions)
}
