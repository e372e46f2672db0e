//! The test layer: one table behind the calls that the given text makes on a layer. A file's bytes are 16, its size and its content
//! number, so that both survive a copy-up; a symlink's target is its content number in decimal digits.

use crate::abi::fuse_abi::{stat64, CreateIn};
use crate::api::filesystem::{Context, DirEntry, Entry, FileSystem, Layer, OpenOptions, ZeroCopyReader, ZeroCopyWriter};
use crate::table::{Record, Table, CHARACTER, DIRECTORY, REGULAR, SYMLINK};
use libc::{EINVAL, EISDIR, ENOTDIR, ENOTEMPTY};
use std::ffi::CStr;
use std::io::{Error, Result};
use std::sync::{Arc, Mutex, MutexGuard};
use std::time::Duration;

/// How many bytes a file has.
const TOKEN: usize = 16;

/// A layer; the table is shared with the driver, which reads the upper one.
pub struct TestLayer(pub Arc<Mutex<Table>>);

impl TestLayer {
    fn table(&self) -> MutexGuard<'_, Table> {
        self.0.lock().expect("a call on this layer panicked before")
    }

    /// What a call that found or made a record answers.
    fn entry(&self, number: u64, r: &Record) -> Entry {
        Entry { inode: number, attr: stat(number, r), ..Entry::default() }
    }

    fn make(&self, parent: u64, name: &CStr, r: Record) -> Result<Entry> {
        let number = self.table().make(parent, name.to_bytes(), &r).map_err(refused)?;
        Ok(self.entry(number, &r))
    }

    fn record(&self, number: u64) -> Result<Record> {
        self.table().record(number).map_err(refused)
    }
}

fn refused(number: i32) -> Error {
    Error::from_raw_os_error(number)
}

/// A mode's kind is its dirent type number 12 bits up.
fn stat(number: u64, r: &Record) -> stat64 {
    stat64 { st_ino: number, st_mode: u32::from(r.kind) << 12 | u32::from(r.permissions) }
}

fn permissions(mode: u32, umask: u32) -> u16 {
    (mode & 0o7777 & !umask) as u16
}

fn token(r: &Record) -> [u8; TOKEN] {
    (u128::from(r.content) << 64 | u128::from(r.size)).to_le_bytes()
}

impl FileSystem for TestLayer {
    type Inode = u64;
    type Handle = u64;

    fn lookup(&self, _: &Context, parent: u64, name: &CStr) -> Result<Entry> {
        let table = self.table();
        let number = table.child(parent, name.to_bytes()).map_err(refused)?;
        let r = table.record(number).map_err(refused)?;
        Ok(self.entry(number, &r))
    }

    /// Nothing is counted here: a record goes with its last entry.
    fn forget(&self, _: &Context, _: u64, _: u64) {}

    fn getattr(&self, _: &Context, inode: u64, _: Option<u64>) -> Result<(stat64, Duration)> {
        Ok((stat(inode, &self.record(inode)?), Duration::ZERO))
    }

    fn readlink(&self, _: &Context, inode: u64) -> Result<Vec<u8>> {
        Ok(self.record(inode)?.content.to_string().into_bytes())
    }

    fn symlink(&self, _: &Context, linkname: &CStr, parent: u64, name: &CStr) -> Result<Entry> {
        let content = linkname.to_str().ok().and_then(|target| target.parse().ok()).ok_or(refused(EINVAL))?;
        self.make(parent, name, Record { content, ..Record::new(SYMLINK, 0o777, 0) })
    }

    fn mknod(&self, _: &Context, parent: u64, name: &CStr, mode: u32, rdev: u32, umask: u32) -> Result<Entry> {
        let device = match mode & libc::S_IFMT {
            libc::S_IFCHR | libc::S_IFBLK => rdev.into(),
            libc::S_IFREG | libc::S_IFIFO | libc::S_IFSOCK => 0,
            _ => return Err(refused(EINVAL)),
        };
        self.make(parent, name, Record::new((mode >> 12) as u8 & 15, permissions(mode, umask), device))
    }

    fn mkdir(&self, _: &Context, parent: u64, name: &CStr, mode: u32, umask: u32) -> Result<Entry> {
        self.make(parent, name, Record::new(DIRECTORY, permissions(mode, umask), 0))
    }

    fn unlink(&self, _: &Context, parent: u64, name: &CStr) -> Result<()> {
        let mut table = self.table();
        let number = table.child(parent, name.to_bytes()).map_err(refused)?;
        match table.record(number).map_err(refused)?.kind {
            DIRECTORY => Err(refused(EISDIR)),
            _ => table.take(parent, name.to_bytes()).map_err(refused),
        }
    }

    fn rmdir(&self, _: &Context, parent: u64, name: &CStr) -> Result<()> {
        let mut table = self.table();
        let number = table.child(parent, name.to_bytes()).map_err(refused)?;
        if table.record(number).map_err(refused)?.kind != DIRECTORY {
            return Err(refused(ENOTDIR));
        }
        if table.children(number, 0).next().is_some() {
            return Err(refused(ENOTEMPTY));
        }
        table.take(parent, name.to_bytes()).map_err(refused)
    }

    fn link(&self, _: &Context, inode: u64, newparent: u64, newname: &CStr) -> Result<Entry> {
        self.table().link(inode, newparent, newname.to_bytes()).map_err(refused)?;
        Ok(self.entry(inode, &self.record(inode)?))
    }

    fn open(&self, _: &Context, inode: u64, _: u32, _: u32) -> Result<(Option<u64>, OpenOptions, Option<u32>)> {
        self.record(inode)?;
        Ok((None, OpenOptions, None))
    }

    /// No handle, so that the text's directories are read by number.
    fn create(&self, _: &Context, parent: u64, name: &CStr, args: CreateIn) -> Result<(Entry, Option<u64>, OpenOptions, Option<u32>)> {
        let entry = self.make(parent, name, Record::new(REGULAR, permissions(args.mode, args.umask), 0))?;
        Ok((entry, None, OpenOptions, None))
    }

    fn read(
        &self,
        _: &Context,
        inode: u64,
        _: u64,
        w: &mut dyn ZeroCopyWriter,
        _: u32,
        offset: u64,
        _: Option<u64>,
        _: u32,
    ) -> Result<usize> {
        let token = token(&self.record(inode)?);
        let rest = &token[TOKEN.min(offset as usize)..];
        w.write_all(rest)?;
        Ok(rest.len())
    }

    fn write(
        &self,
        _: &Context,
        inode: u64,
        _: u64,
        r: &mut dyn ZeroCopyReader,
        _: u32,
        offset: u64,
        _: Option<u64>,
        _: bool,
        _: u32,
        _: u32,
    ) -> Result<usize> {
        let record = self.record(inode)?;
        let mut token = token(&record);
        let rest = &mut token[TOKEN.min(offset as usize)..];
        if rest.is_empty() {
            return Ok(0);
        }
        let count = r.read(rest)?;
        let bytes = u128::from_le_bytes(token);
        let written = Record { size: bytes as u64, content: (bytes >> 64) as u64, ..record };
        self.table().put_record(inode, &written).map_err(refused)?;
        Ok(count)
    }

    fn release(&self, _: &Context, _: u64, _: u32, _: u64, _: bool, _: bool, _: Option<u64>) -> Result<()> {
        Ok(())
    }

    fn opendir(&self, _: &Context, inode: u64, _: u32) -> Result<(Option<u64>, OpenOptions)> {
        match self.record(inode)?.kind {
            DIRECTORY => Ok((None, OpenOptions)),
            _ => Err(refused(ENOTDIR)),
        }
    }

    fn readdir(
        &self,
        _: &Context,
        inode: u64,
        _: u64,
        _: u32,
        offset: u64,
        add_entry: &mut dyn FnMut(DirEntry) -> Result<usize>,
    ) -> Result<()> {
        let table = self.table();
        for (place, number, name) in table.children(inode, offset) {
            let type_ = table.record(number).map_or(0, |r| r.kind.into());
            add_entry(DirEntry { ino: number, offset: place + 1, type_, name })?;
        }
        Ok(())
    }
}

impl Layer for TestLayer {
    fn root_inode(&self) -> u64 {
        1
    }

    fn is_whiteout(&self, _: &Context, inode: u64) -> Result<bool> {
        Ok(self.record(inode)?.is_whiteout())
    }

    fn is_opaque(&self, _: &Context, inode: u64) -> Result<bool> {
        let r = self.record(inode)?;
        match r.kind {
            DIRECTORY => Ok(r.opaque),
            _ => Err(refused(ENOTDIR)),
        }
    }

    fn create_whiteout(&self, _: &Context, parent: u64, name: &CStr) -> Result<Entry> {
        self.make(parent, name, Record::new(CHARACTER, 0, 0))
    }

    fn delete_whiteout(&self, ctx: &Context, parent: u64, name: &CStr) -> Result<()> {
        let number = self.table().child(parent, name.to_bytes()).map_err(refused)?;
        match self.is_whiteout(ctx, number)? {
            true => self.unlink(ctx, parent, name),
            false => Err(refused(EINVAL)),
        }
    }

    fn set_opaque(&self, _: &Context, inode: u64) -> Result<()> {
        let r = self.record(inode)?;
        self.table().put_record(inode, &Record { opaque: true, ..r }).map_err(refused)
    }
}
