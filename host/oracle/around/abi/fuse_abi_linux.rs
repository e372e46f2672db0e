//! The types of the FUSE protocol that the given text names, with the fields that it reads.

#![allow(dead_code, non_camel_case_types)]

pub const ROOT_ID: u64 = 1;

pub type ino64_t = u64;

/// A record's number in its layer, and its kind and permissions as one number.
#[derive(Clone, Copy, Debug, Default)]
pub struct stat64 {
    pub st_ino: ino64_t,
    pub st_mode: libc::mode_t,
}

pub struct statvfs64;

pub struct FsOptions;
pub struct OpenOptions;
pub struct SetattrValid;

#[derive(Clone, Copy)]
pub struct CreateIn {
    pub flags: u32,
    pub mode: u32,
    pub umask: u32,
    pub fuse_flags: u32,
}

pub struct EntryOut {
    pub nodeid: u64,
    pub generation: u64,
    pub entry_valid: u64,
    pub attr_valid: u64,
    pub entry_valid_nsec: u32,
    pub attr_valid_nsec: u32,
    pub attr: Attr,
}

pub struct Attr(stat64, u32);

impl Attr {
    pub fn with_flags(attr: stat64, flags: u32) -> Attr {
        Attr(attr, flags)
    }
}

pub struct FileLock {
    pub start: u64,
    pub end: u64,
    pub type_: u32,
    pub pid: u32,
}

pub struct InHeader {
    pub uid: u32,
    pub gid: u32,
    pub pid: u32,
}
