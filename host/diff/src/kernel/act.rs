//! The calls that write, made on a mount: what document 01 has the call leave is what the same act leaves there.

use super::layout::lay_file;
use crate::call::{Call, Name};
use overlay::{Kind, Record};
use std::ffi::OsStr;
use std::fs;
use std::io;
use std::os::unix::ffi::OsStrExt;
use std::os::unix::fs::{MetadataExt, lchown};
use std::path::{Path, PathBuf};

/// Makes a call below a mount's root; a call that does not write does nothing there.
pub fn act(root: &Path, call: &Call<Vec<Name>>) -> io::Result<()> {
    let at = |path: &[Name]| path.iter().fold(root.to_path_buf(), |at, name| at.join(OsStr::from_bytes(name)));
    let new = |parent: &[Name], name: &[u8]| -> PathBuf { at(parent).join(OsStr::from_bytes(name)) };
    match call {
        Call::Mknod { parent, name, kind, permissions, umask, device } => {
            let kind = Kind::of(*kind).ok_or(io::Error::other("mknod of no kind"))?;
            let device = if matches!(kind, Kind::Block | Kind::Character) { *device } else { 0 };
            let record = Record { device, ..Record::new(kind, (permissions & !umask) as u16) };
            lay_file(&record, &new(parent, name))
        }
        Call::Create { parent, name, permissions, umask } => {
            lay_file(&Record::new(Kind::Regular, (permissions & !umask) as u16), &new(parent, name))
        }
        Call::Symlink { parent, name, content } => {
            lay_file(&Record { content: *content, ..Record::new(Kind::Symlink, 511) }, &new(parent, name))
        }
        Call::Link { source, parent, name } => fs::hard_link(at(source), new(parent, name)),
        Call::CopyUp { node } => copy_up(&at(node)),
        _ => Ok(()),
    }
}

/// A change to what is already so copies up: the mode, and of a symlink, which has none to change, the owner.
fn copy_up(path: &Path) -> io::Result<()> {
    let meta = fs::symlink_metadata(path)?;
    if meta.is_symlink() { lchown(path, Some(meta.uid()), Some(meta.gid())) } else { fs::set_permissions(path, meta.permissions()) }
}
