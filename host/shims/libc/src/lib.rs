//! What the given Rust text takes of the crate `libc`, with the values of Linux on x86-64 and Arm.

#![allow(non_camel_case_types)]

pub use core::ffi::{c_char, c_int, c_uint, c_void};

pub type gid_t = u32;
pub type mode_t = u32;
pub type off64_t = i64;
pub type pid_t = i32;
pub type size_t = usize;
pub type ssize_t = isize;
pub type uid_t = u32;

pub const EPERM: c_int = 1;
pub const ENOENT: c_int = 2;
pub const EIO: c_int = 5;
pub const EEXIST: c_int = 17;
pub const ENOTDIR: c_int = 20;
pub const EISDIR: c_int = 21;
pub const EINVAL: c_int = 22;
pub const ENOSPC: c_int = 28;
pub const EROFS: c_int = 30;
pub const ENAMETOOLONG: c_int = 36;
pub const ENOSYS: c_int = 38;
pub const ENOTEMPTY: c_int = 39;

pub const O_RDONLY: c_int = 0;
pub const O_WRONLY: c_int = 1;
pub const O_RDWR: c_int = 2;
pub const O_CREAT: c_int = 0o100;
pub const O_TRUNC: c_int = 0o1000;
pub const O_APPEND: c_int = 0o2000;

pub const S_IFMT: mode_t = 0o170_000;
pub const S_IFIFO: mode_t = 0o010_000;
pub const S_IFCHR: mode_t = 0o020_000;
pub const S_IFDIR: mode_t = 0o040_000;
pub const S_IFBLK: mode_t = 0o060_000;
pub const S_IFREG: mode_t = 0o100_000;
pub const S_IFLNK: mode_t = 0o120_000;
pub const S_IFSOCK: mode_t = 0o140_000;

pub const DT_UNKNOWN: u8 = 0;
pub const DT_FIFO: u8 = 1;
pub const DT_CHR: u8 = 2;
pub const DT_DIR: u8 = 4;
pub const DT_BLK: u8 = 6;
pub const DT_REG: u8 = 8;
pub const DT_LNK: u8 = 10;
pub const DT_SOCK: u8 = 12;

/// One buffer of a vectored read or write.
#[repr(C)]
pub struct iovec {
    pub iov_base: *mut c_void,
    pub iov_len: size_t,
}

unsafe extern "C" {
    pub fn read(fd: c_int, buf: *mut c_void, count: size_t) -> ssize_t;
    pub fn readv(fd: c_int, iov: *const iovec, iovcnt: c_int) -> ssize_t;
    pub fn pread64(fd: c_int, buf: *mut c_void, count: size_t, offset: off64_t) -> ssize_t;
    pub fn preadv64(fd: c_int, iov: *const iovec, iovcnt: c_int, offset: off64_t) -> ssize_t;
    pub fn write(fd: c_int, buf: *const c_void, count: size_t) -> ssize_t;
    pub fn writev(fd: c_int, iov: *const iovec, iovcnt: c_int) -> ssize_t;
    pub fn pwrite64(fd: c_int, buf: *const c_void, count: size_t, offset: off64_t) -> ssize_t;
    pub fn pwritev64(fd: c_int, iov: *const iovec, iovcnt: c_int, offset: off64_t) -> ssize_t;
    pub fn memfd_create(name: *const c_char, flags: c_uint) -> c_int;
}
