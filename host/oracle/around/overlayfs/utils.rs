//! The crate's two small helpers.

use crate::abi::fuse_abi::stat64;
use std::ffi::CString;
use std::io::{Error, ErrorKind, Result};

pub fn is_dir(st: stat64) -> bool {
    st.st_mode & libc::S_IFMT == libc::S_IFDIR
}

pub fn to_cstring(name: &str) -> Result<CString> {
    CString::new(name).map_err(|e| Error::new(ErrorKind::InvalidData, e))
}
