// The module tree of fuse-backend-rs as far as the given text needs it. A module marked `skip` starts in a given file; the others, and
// the files beside the given ones that bear names of the crate, are this folder's.

#[rustfmt::skip]
mod abi;
mod api;
mod common;
#[allow(clippy::all, dead_code)]
#[rustfmt::skip]
mod overlayfs;

pub(crate) use common::*;
