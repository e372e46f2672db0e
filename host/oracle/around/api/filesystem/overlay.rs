//! What the given text asks of a layer besides the calls of a file system, in the signatures of the crate.

use super::{Context, Entry, FileSystem};
use std::{ffi::CStr, io::Result};

pub trait Layer: FileSystem {
    fn root_inode(&self) -> Self::Inode;
    fn is_whiteout(&self, ctx: &Context, inode: Self::Inode) -> Result<bool>;
    fn is_opaque(&self, ctx: &Context, inode: Self::Inode) -> Result<bool>;
    fn create_whiteout(&self, ctx: &Context, parent: Self::Inode, name: &CStr) -> Result<Entry>;
    fn delete_whiteout(&self, ctx: &Context, parent: Self::Inode, name: &CStr) -> Result<()>;
    fn set_opaque(&self, ctx: &Context, inode: Self::Inode) -> Result<()>;
}
