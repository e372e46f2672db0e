//! The calls that write the upper layer.

use crate::errno::{Errno, done, value};
use crate::ffi::{self, Special};
use crate::join::Overlay;

/// A name that is created or linked gets a record of the upper layer alone as its stack; where it has a node, a whiteout's, that node keeps
/// its number and count. What is missing above it in the upper layer is made first: directories with the same permissions, never opaque. 28
/// is decided on what the upper layer would hold after the whole call.
///
/// ```
/// use overlay::{Overlay, ROOT, text};
///
/// // The factory has a `sepia`, which the owner has deleted.
/// let owner = text::table("record 1 directory 0755\nrecord 2 character 0\nentry 0 1 2 sepia").unwrap();
/// let factory = text::table("record 1 directory 0755\nrecord 2 regular 0644 content 12\nrecord 3 regular 0644 content 13\n\
///                            entry 0 1 2 sepia\nentry 1 1 3 vivid").unwrap();
/// let mut styles = Overlay::import(Some(owner), vec![factory]).unwrap();
///
/// // A new one takes the whiteout's places; `vivid` is copied up before it gets a second name.
/// let sepia = styles.create(ROOT, b"sepia", 0o666, 0o022).unwrap();
/// assert_eq!(styles.node(sepia).unwrap().stack, [(0, 2)]);
/// let vivid = styles.lookup(ROOT, b"vivid").unwrap();
/// let mine = styles.link(vivid, ROOT, b"mine").unwrap();
/// assert_eq!(styles.node(mine).unwrap().stack, styles.node(vivid).unwrap().stack);
/// let lines = "record 1 directory 0755\nrecord 2 regular 0644\nrecord 3 regular 0644 content 13\n\
///              entry 0 1 2 sepia\nentry 1 1 3 vivid\nentry 2 1 3 mine\n";
/// assert_eq!(text::print(styles.upper().unwrap()), lines);
/// ```
impl Overlay {
    /// Makes a file, device, fifo or socket and answers its node: `kind` is the number of a [`Kind`](crate::Kind) but directory and symlink,
    /// the permissions lose the umask's bits, and `device` counts for a device only. Refused with 22, 2, 30, 2, 20, 23, 17, 1, 36, 23, 28,
    /// in this order.
    pub fn mknod(&mut self, parent: u64, name: &[u8], kind: u32, permissions: u32, umask: u32, device: u64) -> Result<u64, Errno> {
        value(ffi::mknod(&mut self.lend_writable(), parent, name, Special { kind, permissions, umask, device })).map(u64::from)
    }

    /// Makes a regular file and answers its node; the permissions lose the umask's bits. Refused with 22, 2, 30, 2, 20, 23, 17, 36, 23, 28,
    /// in this order.
    pub fn create(&mut self, parent: u64, name: &[u8], permissions: u32, umask: u32) -> Result<u64, Errno> {
        value(ffi::create(&mut self.lend_writable(), parent, name, permissions, umask)).map(u64::from)
    }

    /// Makes a symlink of permissions 511, whose target the content number stands for, and answers its node. Refused with 22, 2, 30, 2, 20,
    /// 23, 17, 36, 23, 28, in this order.
    pub fn symlink(&mut self, parent: u64, name: &[u8], content: u64) -> Result<u64, Errno> {
        value(ffi::symlink(&mut self.lend_writable(), parent, name, content)).map(u64::from)
    }

    /// Gives `source` a further name, after it was copied up, and answers that name's node. Refused with 22, 2, 30, 2, 1, 20, 23, 17, 36, 23,
    /// 28, in this order.
    pub fn link(&mut self, source: u64, parent: u64, name: &[u8]) -> Result<u64, Errno> {
        value(ffi::link(&mut self.lend_writable(), source, parent, name)).map(u64::from)
    }

    /// Puts a node's top record into the upper layer: a directory in front of its stack, anything else alone. Refused with 2, 30, 2, in
    /// this order; then nothing is to do where the top record is upper; then 28.
    pub fn copy_up(&mut self, node: u64) -> Result<(), Errno> {
        done(ffi::copy_up(&mut self.lend_writable(), node))
    }
}
