//! The few system calls that the standard library does not have.

use std::ffi::{CStr, CString, c_char, c_int, c_uint, c_ulong, c_void};
use std::io;
use std::os::unix::ffi::OsStrExt;
use std::path::Path;

unsafe extern "C" {
    fn unshare(flags: c_int) -> c_int;
    fn mount(source: *const c_char, target: *const c_char, kind: *const c_char, flags: c_ulong, data: *const c_void) -> c_int;
    fn umount2(target: *const c_char, flags: c_int) -> c_int;
    fn setxattr(path: *const c_char, name: *const c_char, value: *const c_void, size: usize, flags: c_int) -> c_int;
    fn mknod(path: *const c_char, mode: c_uint, device: u64) -> c_int;
}

const CLONE_NEWNS: c_int = 0x0002_0000;
const MS_REC: c_ulong = 0x4000;
const MS_PRIVATE: c_ulong = 0x4_0000;
const MNT_DETACH: c_int = 2;

fn text(path: &Path) -> io::Result<CString> {
    CString::new(path.as_os_str().as_bytes()).map_err(io::Error::other)
}

fn done(answer: c_int) -> io::Result<()> {
    if answer == 0 { Ok(()) } else { Err(io::Error::last_os_error()) }
}

/// A mount namespace for this thread alone, from which nothing spreads.
pub fn own_mounts() -> io::Result<()> {
    // SAFETY: the flag touches this thread's mounts alone.
    done(unsafe { unshare(CLONE_NEWNS) })?;
    mount_at(c"none", Path::new("/"), None, MS_REC | MS_PRIVATE, c"")
}

/// Mounts a file system of this kind.
pub fn mount_new(kind: &CStr, target: &Path, options: &CStr) -> io::Result<()> {
    mount_at(kind, target, Some(kind), 0, options)
}

fn mount_at(source: &CStr, target: &Path, kind: Option<&CStr>, flags: c_ulong, options: &CStr) -> io::Result<()> {
    let target = text(target)?;
    let kind = kind.map_or(std::ptr::null(), CStr::as_ptr);
    // SAFETY: every pointer is a string that ends in 0 and outlives the call, or null where no kind is asked.
    done(unsafe { mount(source.as_ptr(), target.as_ptr(), kind, flags, options.as_ptr().cast()) })
}

/// Takes a mount away, at once for new users and later for those that are inside.
pub fn unmount(target: &Path) -> io::Result<()> {
    let target = text(target)?;
    // SAFETY: the string ends in 0 and outlives the call.
    done(unsafe { umount2(target.as_ptr(), MNT_DETACH) })
}

/// Sets an extended attribute.
pub fn set_attribute(path: &Path, name: &CStr, value: &[u8]) -> io::Result<()> {
    let path = text(path)?;
    // SAFETY: the strings end in 0 and the value has the length given; all outlive the call.
    done(unsafe { setxattr(path.as_ptr(), name.as_ptr(), value.as_ptr().cast(), value.len(), 0) })
}

/// Makes a file of any kind that is neither a directory nor a symlink; `mode` has the kind.
pub fn make_node(path: &Path, mode: u32, device: u64) -> io::Result<()> {
    let path = text(path)?;
    // SAFETY: the string ends in 0 and outlives the call.
    done(unsafe { mknod(path.as_ptr(), mode, device) })
}
