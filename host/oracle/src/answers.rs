//! What the oracle answers with.

/// One entry of a listing.
#[derive(Clone, PartialEq, Eq, PartialOrd, Ord, Debug)]
pub struct Listed {
    /// The top record's number in its layer.
    pub inode: u64,
    /// The dirent type number.
    pub kind: u32,
    pub name: Vec<u8>,
}

/// One node as the Rust holds it.
#[derive(Clone, PartialEq, Eq, Debug)]
pub struct View {
    pub number: u64,
    pub name: Vec<u8>,
    /// The names from the root down, its own the last; the root's path is empty.
    pub path: Vec<Vec<u8>>,
    /// Layer and record, topmost first; layer 0 is the upper one, and the lower ones count from 1 also where there is no upper one.
    pub stack: Vec<(u8, u8)>,
    pub whiteout: bool,
    pub loaded: bool,
    /// The lookup count.
    pub count: u64,
    /// Name and number of each child in the node's own table, in byte order of names.
    pub children: Vec<(Vec<u8>, u64)>,
}
