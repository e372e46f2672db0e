//! A safe Rust face over the overlay join of this repository, whose every answer is proved.
//!
//! The join takes layer tables, at most one upper layer and up to three lower ones, and answers which record stands behind a name: the
//! topmost one, unless a layer above it has deleted the name (a whiteout) or hides what is below (an opaque directory). Tables are written
//! as text ([`text`]) or put together item by item ([`Table`]); [`Overlay`] imports them and has the calls. Names are bytes, a refusal
//! is an [`Errno`], and any table, damaged ones included, gets an answer.
//!
//! ```
//! # use overlay::{Errno, Overlay, ROOT, text};
//! let factory = text::table("record 1 directory 0755\nrecord 2 regular 0644 content 12\nentry 0 1 2 sepia")?;
//! let owner = text::table("record 1 directory 0755\nrecord 2 character 0\nentry 0 1 2 sepia")?;
//! assert_eq!(Overlay::import(None, vec![factory.clone()])?.lookup(ROOT, b"sepia"), Ok(2));
//! assert_eq!(Overlay::import(Some(owner), vec![factory])?.lookup(ROOT, b"sepia"), Err(Errno::Enoent)); // deleted by its owner
//! # Ok::<(), Box<dyn std::error::Error>>(())
//! ```
//!
//! The archive that is linked is the one that `tools/native` makes, or the one that `OVERLAY_ARCHIVE` names at build time.

mod bytes;
mod dirent;
mod errno;
mod ffi;
mod join;
mod node;
pub mod table;
pub mod text;
mod writes;

pub use dirent::{Dirent, dirents};
pub use errno::Errno;
pub use join::{Count, Overlay, Page, ROOT, STATE};
pub use node::Node;
pub use table::{Entry, Kind, Record, TABLE, Table};
