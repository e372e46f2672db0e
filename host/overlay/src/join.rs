//! Owned layers and state, and the calls on them.

use crate::bytes::{u32_at, u64_at};
use crate::dirent::{Dirent, dirents};
use crate::errno::{Errno, done, value};
use crate::ffi::{self, Layers, Writable};
use crate::node::{NODE, Node};
use crate::table::Table;
use std::fmt;
use std::sync::Arc;

/// The bytes of a state.
pub const STATE: usize = 13324;
/// The root's node number.
pub const ROOT: u64 = 1;

/// The bytes of a state before its nodes, and how many nodes fit behind them.
const HEAD: usize = 12;
const NODES: usize = (STATE - HEAD) / NODE;
/// The longest listing: ".", ".." and 255 children with names of 28 bytes.
const LISTING: usize = 257 * 56;

/// How many children a directory has.
#[derive(Clone, Copy, PartialEq, Eq, Hash, Debug)]
pub struct Count {
    pub live: u32,
    pub whiteouts: u32,
}

/// How much of the buffer a listing wrote, and whether entries remain behind it.
#[derive(Clone, Copy, PartialEq, Eq, Hash, Debug)]
pub struct Page {
    pub bytes: usize,
    pub remains: bool,
}

/// The lower layers, as they were given and one after another, as the calls want them.
struct Lower {
    tables: Vec<Table>,
    joined: Vec<u8>,
}

/// A join of layers that was imported: it owns its tables and its state, so that no call meets a state of other layers.
///
/// ```
/// use overlay::{Count, Errno, Overlay, ROOT, dirents, text};
///
/// // The owner has a `vivid` of its own and has deleted `sepia`.
/// let owner = text::table("record 1 directory 0755\nrecord 2 regular 0644 content 99\nrecord 3 character 0\n\
///                          entry 0 1 2 vivid\nentry 1 1 3 sepia").unwrap();
/// let factory = text::table("record 1 directory 0755\nrecord 2 regular 0644 content 12\nrecord 3 regular 0644 content 13\n\
///                            entry 0 1 2 sepia\nentry 1 1 3 vivid").unwrap();
/// let mut styles = Overlay::import(Some(owner), vec![factory]).unwrap();
///
/// let vivid = styles.lookup(ROOT, b"vivid").unwrap();
/// assert_eq!(styles.node(vivid).unwrap().stack, [(0, 2)]);
/// assert_eq!(styles.lookup(ROOT, b"sepia"), Err(Errno::Enoent));
/// assert_eq!(styles.count(ROOT), Ok(Count { live: 1, whiteouts: 1 }));
///
/// let mut buffer = [0; 96];
/// let page = styles.list(ROOT, 0, 96, &mut buffer).unwrap();
/// let names: Vec<_> = dirents(&buffer[..page.bytes]).into_iter().map(|d| d.name).collect();
/// assert_eq!(names, [&b"."[..], b"..", b"vivid"]);
///
/// styles.forget(vivid, 2);
/// assert_eq!(styles.node(vivid), Err(Errno::Enoent));
/// ```
#[derive(Clone)]
pub struct Overlay {
    state: Box<[u8; STATE]>,
    upper: Option<Table>,
    // Shared by clones, since no call writes it.
    lower: Arc<Lower>,
}

impl Overlay {
    /// Joins the layers, the topmost lower one first, and loads the root. Refused with 22 (no layer, more than 3 lower ones, or a table
    /// that breaks a rule) or 23 (the root's names don't fit).
    pub fn import(upper: Option<Table>, lower: Vec<Table>) -> Result<Overlay, Errno> {
        let joined = lower.iter().map(Table::bytes).collect::<Vec<_>>().concat();
        let mut join = Overlay { state: Box::new([0; STATE]), upper, lower: Arc::new(Lower { tables: lower, joined }) };
        join.again().map(|()| join)
    }

    /// Imports the same layers anew, the upper one as the calls left it: every node but the root and its children is gone, and the
    /// numbers start again. Refused, it leaves every number unknown.
    pub fn again(&mut self) -> Result<(), Errno> {
        let (state, layers) = self.lend();
        done(ffi::import(state, layers))
    }

    /// The node that `parent` has under a name, its count raised by 1. Refused with 22, 2, 20, 23, 2, in this order.
    pub fn lookup(&mut self, parent: u64, name: &[u8]) -> Result<u64, Errno> {
        let (state, layers) = self.lend();
        value(ffi::lookup(state, layers, parent, name)).map(u64::from)
    }

    /// How many live and whiteout children a directory has. Refused with 2, 20, 23, in this order.
    pub fn count(&mut self, node: u64) -> Result<Count, Errno> {
        let (state, layers) = self.lend();
        let both = value(ffi::count(state, layers, node))?;
        Ok(Count { live: both & 0xffff, whiteouts: both >> 16 })
    }

    /// Writes a directory's entries from `offset` on as long as the next fits in the smaller of `size` and the buffer; [`dirents`] reads
    /// them back. Size 0 succeeds whatever the number; then refused with 2, 20, 23, in this order.
    pub fn list(&mut self, node: u64, offset: u64, size: u64, buffer: &mut [u8]) -> Result<Page, Errno> {
        let (state, layers) = self.lend();
        let both = value(ffi::list(state, layers, node, offset, size, buffer))?;
        Ok(Page { bytes: (both & 0x7fff_ffff) as usize, remains: both >> 31 == 1 })
    }

    /// A directory's whole listing, "." and ".." included.
    pub fn listing(&mut self, node: u64) -> Result<Vec<Dirent>, Errno> {
        let mut buffer = [0; LISTING];
        let page = self.list(node, 0, LISTING as u64, &mut buffer)?;
        Ok(dirents(&buffer[..page.bytes]))
    }

    /// Lowers a node's count by `amount`; at 0 the node goes, unless it has resident children. 0, the root and unknown numbers do nothing.
    pub fn forget(&mut self, node: u64, amount: u64) {
        ffi::forget(&mut self.state[..], node, amount);
    }

    /// The node with this number; 2 where it is unknown.
    pub fn node(&self, node: u64) -> Result<Node, Errno> {
        let mut out = [0; NODE];
        done(ffi::node(&self.state[..], node, &mut out)).map(|()| Node::of(&out))
    }

    /// Every node in table order: by the parent's number, then by name, the root first.
    pub fn nodes(&self) -> Vec<Node> {
        let count = (u32_at(&self.state[..], 8) as usize).min(NODES);
        self.state[HEAD..].chunks_exact(NODE).take(count).map(Node::of).collect()
    }

    /// The next node number to give; 4294967296 where none is left.
    pub fn next_number(&self) -> u64 {
        u64_at(&self.state[..], 0)
    }

    /// The upper layer.
    pub fn upper(&self) -> Option<&Table> {
        self.upper.as_ref()
    }

    /// The lower layers, the topmost first.
    pub fn lower(&self) -> &[Table] {
        &self.lower.tables
    }

    /// The table of a stack's layer: 0 is the upper one, 1 to 3 are the lower ones in order.
    pub fn layer(&self, layer: u8) -> Option<&Table> {
        if layer == 0 { self.upper() } else { self.lower().get(usize::from(layer) - 1) }
    }

    /// The state's 13324 bytes, as docs/ABI.md lays them out.
    pub fn state(&self) -> &[u8] {
        &self.state[..]
    }

    /// What a call that reads the layers is lent.
    fn lend(&mut self) -> (&mut [u8], Layers<'_>) {
        let upper = self.upper.as_ref().map_or(&[][..], Table::bytes);
        (&mut self.state[..], Layers { upper, lower: &self.lower.joined })
    }

    /// What a call that writes the upper layer is lent.
    pub(crate) fn lend_writable(&mut self) -> Writable<'_> {
        let upper = self.upper.as_mut().map_or(&mut [][..], Table::bytes_mut);
        Writable { state: &mut self.state[..], upper, lower: &self.lower.joined }
    }
}

/// The upper layer's items and the nodes, in the lines of docs/REPLAY.md.
impl fmt::Debug for Overlay {
    fn fmt(&self, f: &mut fmt::Formatter<'_>) -> fmt::Result {
        self.upper().map_or(Ok(()), |t| write!(f, "{t:?}"))?;
        writeln!(f, "next {}", self.next_number())?;
        self.nodes().iter().try_for_each(|n| writeln!(f, "{n}"))
    }
}
