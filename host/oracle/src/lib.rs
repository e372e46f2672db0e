//! The given Rust text (`overlayfs` of fuse-backend-rs 0.14.0) compiled unchanged, over a test layer that holds document 01's tables: what
//! the library's answers are compared with.
//!
//! The text is not part of the project. The build takes it from the folder that `OVERLAY_RUST_TEXT` names, by default `../shared/docs/src`
//! beside the repository, and refuses a file whose checksum is not the one in `text.sha256`. Where the folder is not there,
//! [`available`] is false and [`Oracle::import`] refuses.
//!
//! - `around/` has the files of the crate that the text names and that are not given; the build lays both into one tree of modules.
//!   Among them `overlayfs/sync_io.rs` is the driver: as a child of the text's module it calls the private functions directly.
//! - `src/layer.rs` is the test layer, `src/table.rs` its table.

mod answers;

pub use answers::{Listed, View};

/// The words after `skipped: ` where the text was not there when this crate was built.
pub const SKIPPED: &str = "the Rust text of fuse-backend-rs 0.14.0 was not there at build time: put it at ../shared/docs/src beside the \
                           repository, or name its folder in OVERLAY_RUST_TEXT, and build again";

/// Whether the text was there when this crate was built.
pub fn available() -> bool {
    cfg!(text)
}

#[cfg(not(text))]
mod absent;
#[cfg(not(text))]
pub use absent::Oracle;

#[cfg(text)]
#[macro_use]
extern crate log;
#[cfg(text)]
include!(concat!(env!("OUT_DIR"), "/text/root.rs"));
#[cfg(text)]
mod layer;
#[cfg(text)]
mod table;
#[cfg(text)]
pub use overlayfs::sync_io::Oracle;

// What the build lays around the text is compiled from its folder; it is named here so that `cargo fmt` reaches it.
#[cfg(any())]
#[path = "../around"]
mod around {
    #[path = "overlayfs/sync_io.rs"]
    mod driver;
    #[path = "api/filesystem/sync_io.rs"]
    mod filesystem;
    #[path = "abi/fuse_abi_linux.rs"]
    mod fuse_abi;
    #[path = "api/filesystem/overlay.rs"]
    mod layer;
    mod root;
    #[path = "overlayfs/utils.rs"]
    mod utils;
}
