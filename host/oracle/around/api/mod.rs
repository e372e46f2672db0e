//! What the given text takes of the crate's interface.

#[rustfmt::skip]
#[allow(clippy::all, dead_code, unused_imports)]
pub mod filesystem;

use filesystem::Entry;
use std::{any::Any, io::Result};

pub const SLASH_ASCII: u8 = b'/';
/// Numbers of nodes have 56 bits.
pub const VFS_MAX_INO: u64 = 0xff_ffff_ffff_ffff;

#[allow(dead_code)]
pub trait BackendFileSystem {
    fn mount(&self) -> Result<(Entry, u64)>;
    fn as_any(&self) -> &dyn Any;
}
