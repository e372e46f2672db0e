//! The calls that the given text makes on a layer, in the signatures of the crate. A call that the test layer does not have gives ENOSYS,
//! as in the crate.

#![allow(clippy::too_many_arguments)]

use super::{Context, DirEntry, Entry, OpenOptions, ZeroCopyReader, ZeroCopyWriter};
use crate::abi::fuse_abi::{stat64, statvfs64, CreateIn};
use std::{ffi::CStr, io, time::Duration};

pub trait FileSystem {
    type Inode: From<u64> + Into<u64>;
    type Handle: From<u64> + Into<u64>;

    fn lookup(&self, ctx: &Context, parent: Self::Inode, name: &CStr) -> io::Result<Entry>;
    fn forget(&self, ctx: &Context, inode: Self::Inode, count: u64);
    fn getattr(&self, ctx: &Context, inode: Self::Inode, handle: Option<Self::Handle>) -> io::Result<(stat64, Duration)>;
    fn readlink(&self, ctx: &Context, inode: Self::Inode) -> io::Result<Vec<u8>>;
    fn symlink(&self, ctx: &Context, linkname: &CStr, parent: Self::Inode, name: &CStr) -> io::Result<Entry>;
    fn mknod(&self, ctx: &Context, parent: Self::Inode, name: &CStr, mode: u32, rdev: u32, umask: u32) -> io::Result<Entry>;
    fn mkdir(&self, ctx: &Context, parent: Self::Inode, name: &CStr, mode: u32, umask: u32) -> io::Result<Entry>;
    fn unlink(&self, ctx: &Context, parent: Self::Inode, name: &CStr) -> io::Result<()>;
    fn rmdir(&self, ctx: &Context, parent: Self::Inode, name: &CStr) -> io::Result<()>;
    fn link(&self, ctx: &Context, inode: Self::Inode, newparent: Self::Inode, newname: &CStr) -> io::Result<Entry>;
    fn open(
        &self,
        ctx: &Context,
        inode: Self::Inode,
        flags: u32,
        fuse_flags: u32,
    ) -> io::Result<(Option<Self::Handle>, OpenOptions, Option<u32>)>;
    fn create(
        &self,
        ctx: &Context,
        parent: Self::Inode,
        name: &CStr,
        args: CreateIn,
    ) -> io::Result<(Entry, Option<Self::Handle>, OpenOptions, Option<u32>)>;
    fn read(
        &self,
        ctx: &Context,
        inode: Self::Inode,
        handle: Self::Handle,
        w: &mut dyn ZeroCopyWriter,
        size: u32,
        offset: u64,
        lock_owner: Option<u64>,
        flags: u32,
    ) -> io::Result<usize>;
    fn write(
        &self,
        ctx: &Context,
        inode: Self::Inode,
        handle: Self::Handle,
        r: &mut dyn ZeroCopyReader,
        size: u32,
        offset: u64,
        lock_owner: Option<u64>,
        delayed_write: bool,
        flags: u32,
        fuse_flags: u32,
    ) -> io::Result<usize>;
    fn release(
        &self,
        ctx: &Context,
        inode: Self::Inode,
        flags: u32,
        handle: Self::Handle,
        flush: bool,
        flock_release: bool,
        lock_owner: Option<u64>,
    ) -> io::Result<()>;
    fn opendir(&self, ctx: &Context, inode: Self::Inode, flags: u32) -> io::Result<(Option<Self::Handle>, OpenOptions)>;
    fn readdir(
        &self,
        ctx: &Context,
        inode: Self::Inode,
        handle: Self::Handle,
        size: u32,
        offset: u64,
        add_entry: &mut dyn FnMut(DirEntry) -> io::Result<usize>,
    ) -> io::Result<()>;

    fn releasedir(&self, _: &Context, _: Self::Inode, _flags: u32, _: Self::Handle) -> io::Result<()> {
        Err(io::Error::from_raw_os_error(libc::ENOSYS))
    }
    fn statfs(&self, _: &Context, _: Self::Inode) -> io::Result<statvfs64> {
        Err(io::Error::from_raw_os_error(libc::ENOSYS))
    }
    fn fsync(&self, _: &Context, _: Self::Inode, _datasync: bool, _: Self::Handle) -> io::Result<()> {
        Err(io::Error::from_raw_os_error(libc::ENOSYS))
    }
    fn fsyncdir(&self, _: &Context, _: Self::Inode, _datasync: bool, _: Self::Handle) -> io::Result<()> {
        Err(io::Error::from_raw_os_error(libc::ENOSYS))
    }
}
