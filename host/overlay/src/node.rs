//! A node as the state's bytes have it.

use crate::bytes::u32_at;
use crate::text;
use std::fmt;

/// The bytes of a node's place.
pub(crate) const NODE: usize = 52;

/// A node: a name that was loaded, and the records behind it.
#[derive(Clone, PartialEq, Eq, Hash, Debug)]
pub struct Node {
    pub number: u32,
    /// The parent's number, 0 for the root.
    pub parent: u32,
    /// The lookup count.
    pub count: u32,
    pub whiteout: bool,
    /// The names of this directory have nodes.
    pub loaded: bool,
    /// Each record as its layer and number, topmost first; layer 0 is the upper one, 1 to 3 are the lower ones in order.
    pub stack: Vec<(u8, u8)>,
    /// Empty for the root.
    pub name: Vec<u8>,
}

impl Node {
    /// The node that these 52 bytes hold; a length over its limit is taken as the limit.
    pub(crate) fn of(b: &[u8]) -> Node {
        let (depth, length) = (usize::from(b[14]).min(4), usize::from(b[15]).min(28));
        Node {
            number: u32_at(b, 0),
            parent: u32_at(b, 4),
            count: u32_at(b, 8),
            whiteout: b[12] != 0,
            loaded: b[13] != 0,
            stack: b[16..16 + 2 * depth].chunks(2).map(|p| (p[0], p[1])).collect(),
            name: b[24..24 + length].to_vec(),
        }
    }
}

/// The line of docs/REPLAY.md.
impl fmt::Display for Node {
    fn fmt(&self, f: &mut fmt::Formatter<'_>) -> fmt::Result {
        write!(f, "node {} in {} count {} stack", self.number, self.parent, self.count)?;
        self.stack.iter().try_for_each(|(layer, record)| write!(f, " {layer}:{record}"))?;
        f.write_str(if self.whiteout { " whiteout" } else { "" })?;
        f.write_str(if self.loaded { " loaded" } else { "" })?;
        let name = if self.name.is_empty() { "/".into() } else { text::name(&self.name) };
        write!(f, " name {name}")
    }
}
