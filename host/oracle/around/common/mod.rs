//! The crate's module of the same name, all of whose items it also has at its root.

pub mod file_buf;
#[allow(clippy::all, dead_code)]
#[rustfmt::skip]
pub mod file_traits;

pub use libc::{off64_t, pread64, preadv64, pwrite64, pwritev64};
