//! What stands in for the oracle where the text was not there when the crate was built: nobody has one.

use crate::{Listed, View};

type Answer<T> = Result<T, i32>;

/// No oracle: nobody can make one.
pub struct Oracle(Nobody);

/// Without a value. Behind a field, so that it makes no code of others unreachable.
enum Nobody {}

impl Oracle {
    /// Refuses with 38 (ENOSYS): ask [`crate::available`] first.
    pub fn import(_: Option<&[u8]>, _: &[&[u8]]) -> Answer<Oracle> {
        Err(libc::ENOSYS)
    }
    pub fn lookup(&self, _: u64, _: &[u8]) -> Answer<u64> {
        match self.0 {}
    }
    pub fn load(&self, _: u64) -> Answer<()> {
        match self.0 {}
    }
    pub fn count(&self, _: u64) -> Answer<(u64, u64)> {
        match self.0 {}
    }
    pub fn list(&self, _: u64) -> Answer<Vec<Listed>> {
        match self.0 {}
    }
    pub fn list_count(&self, _: u64) -> Answer<usize> {
        match self.0 {}
    }
    pub fn forget(&self, _: u64, _: u64) {
        match self.0 {}
    }
    pub fn mknod(&self, _: u64, _: &[u8], _: u32, _: u32, _: u32, _: u64) -> Answer<u64> {
        match self.0 {}
    }
    pub fn create(&self, _: u64, _: &[u8], _: u32, _: u32) -> Answer<u64> {
        match self.0 {}
    }
    pub fn symlink(&self, _: u64, _: &[u8], _: u64) -> Answer<u64> {
        match self.0 {}
    }
    pub fn link(&self, _: u64, _: u64, _: &[u8]) -> Answer<u64> {
        match self.0 {}
    }
    pub fn copy_up(&self, _: u64) -> Answer<()> {
        match self.0 {}
    }
    pub fn mkdir(&self, _: u64, _: &[u8], _: u32, _: u32) -> Answer<u64> {
        match self.0 {}
    }
    pub fn remove(&self, _: u64, _: &[u8], _: bool) -> Answer<()> {
        match self.0 {}
    }
    pub fn view(&self, _: u64) -> Option<View> {
        match self.0 {}
    }
    pub fn merge(&self, _: &[u8]) -> Answer<(Vec<(u8, u8)>, bool)> {
        match self.0 {}
    }
    pub fn upper(&self) -> Option<Vec<u8>> {
        match self.0 {}
    }
}
