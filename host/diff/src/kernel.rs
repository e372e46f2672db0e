//! The kernel's own overlayfs as a second oracle: the same layers laid out as folders and mounted, the trees compared.

mod act;
mod ground;
mod layout;
mod mount;
mod report;
mod session;
mod sys;
mod tree;

pub use ground::Ground;
pub use layout::lay_out;
pub use mount::{Mount, mount_layers};
pub use report::run;
pub use session::{Acted, Quirk, Session, mountable};
pub use tree::{Item, Tree, kernel_tree, side_tree};
