//! A tmpfs in a mount namespace of its own: nothing is left behind, whatever ends the run.

use super::sys;
use std::fs;
use std::io;
use std::path::{Path, PathBuf};

/// The ground that layers are laid out on. It belongs to the thread that made it.
pub struct Ground {
    folder: PathBuf,
}

impl Ground {
    /// A tmpfs over the folder for temporary files, seen by this thread alone; refused with words where the machine does not allow it.
    pub fn new() -> Result<Ground, String> {
        let known = fs::read_to_string("/proc/filesystems").unwrap_or_default();
        if !known.split_whitespace().any(|word| word == "overlay") {
            return Err("this kernel has no overlayfs: load the module `overlay`".to_string());
        }
        let folder = std::env::temp_dir();
        let made = sys::own_mounts().and_then(|()| sys::mount_new(c"tmpfs", &folder, c"mode=0700"));
        made.map_err(|e| format!("no mount namespace with a tmpfs of its own ({e}): run as root"))?;
        Ok(Ground { folder })
    }

    /// A new and empty folder of this name, whatever stood there.
    pub fn folder(&self, name: &str) -> io::Result<PathBuf> {
        let folder = self.path(name);
        if folder.exists() {
            fs::remove_dir_all(&folder)?;
        }
        fs::create_dir(&folder)?;
        Ok(folder)
    }

    /// The path of a folder of this name.
    pub fn path(&self, name: &str) -> PathBuf {
        Path::new(&self.folder).join(name)
    }
}

impl Drop for Ground {
    fn drop(&mut self) {
        // The namespace goes with its thread; until then the tmpfs need not lie over the folder.
        let _ = sys::unmount(&self.folder);
    }
}
