//! What the given Rust text takes of the crate `vmm-sys-util`: a file that is gone when it is closed.

/// The temporary file that a copied-up file's bytes go through.
pub mod tempfile {
    use std::fs::File;
    use std::io::{Error, Result};
    use std::os::fd::FromRawFd;

    /// A file in memory, without a name in any folder.
    pub struct TempFile(File);

    impl TempFile {
        /// An empty file.
        pub fn new() -> Result<TempFile> {
            // SAFETY: the name is a C string.
            let fd = unsafe { libc::memfd_create(c"copy-up".as_ptr(), 0) };
            if fd < 0 {
                return Err(Error::last_os_error());
            }
            // SAFETY: the descriptor is new, so nobody else has it.
            Ok(TempFile(unsafe { File::from_raw_fd(fd) }))
        }

        /// The open file itself.
        pub fn into_file(self) -> File {
            self.0
        }
    }
}
