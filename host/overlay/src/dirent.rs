//! The entries of a listing page.

use crate::bytes::{u32_at, u64_at};
use crate::text;
use std::fmt;

/// The bytes of an entry before its name.
const HEAD: usize = 24;

/// One FUSE dirent.
#[derive(Clone, PartialEq, Eq, Hash, Debug)]
pub struct Dirent {
    /// The top record's number.
    pub inode: u64,
    /// The offset that the entries after this one are asked with.
    pub offset: u64,
    /// The dirent type number, that of a [`Kind`](crate::Kind).
    pub kind: u32,
    pub name: Vec<u8>,
}

/// The entries of a page that a listing wrote; it ends at the first that does not lie wholly in the page.
pub fn dirents(page: &[u8]) -> Vec<Dirent> {
    let mut out = Vec::new();
    let mut rest = page;
    while rest.len() >= HEAD {
        let length = u32_at(rest, 16) as usize;
        let Some(name) = rest[HEAD..].get(..length) else { break };
        out.push(Dirent { inode: u64_at(rest, 0), offset: u64_at(rest, 8), kind: u32_at(rest, 20), name: name.to_vec() });
        rest = rest.get(HEAD + length.next_multiple_of(8)..).unwrap_or(&[]);
    }
    out
}

/// The line of docs/REPLAY.md.
impl fmt::Display for Dirent {
    fn fmt(&self, f: &mut fmt::Formatter<'_>) -> fmt::Result {
        write!(f, "inode {} offset {} type {} name {}", self.inode, self.offset, self.kind, text::name(&self.name))
    }
}
