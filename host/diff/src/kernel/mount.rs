//! Layers mounted.

use super::ground::Ground;
use super::layout::lay_out;
use super::sys;
use crate::case::Layers;
use std::ffi::CString;
use std::io;
use std::os::unix::ffi::OsStrExt;
use std::path::{Path, PathBuf};

/// A mount, which goes when it is dropped.
pub struct Mount {
    at: PathBuf,
}

impl Mount {
    /// Mounts overlayfs: the lower folders topmost first, and the upper one with its work folder.
    pub fn new(lower: &[PathBuf], upper: Option<(&Path, &Path)>, at: PathBuf) -> io::Result<Mount> {
        let mut options = b"index=off,metacopy=off,xino=off,redirect_dir=off".to_vec();
        if !lower.is_empty() {
            options.extend(b",lowerdir=");
            options.extend(lower.iter().map(|l| l.as_os_str().as_bytes()).collect::<Vec<_>>().join(&b':'));
        }
        if let Some((upper, work)) = upper {
            for (option, folder) in [(&b",upperdir="[..], upper), (&b",workdir="[..], work)] {
                options.extend(option.iter().chain(folder.as_os_str().as_bytes()));
            }
        }
        sys::mount_new(c"overlay", &at, &CString::new(options).map_err(io::Error::other)?)?;
        Ok(Mount { at })
    }

    pub fn path(&self) -> &Path {
        &self.at
    }
}

impl Drop for Mount {
    fn drop(&mut self) {
        // What is not unmounted here goes with the namespace.
        let _ = sys::unmount(&self.at);
    }
}

/// Lays the layers out anew and mounts them.
pub fn mount_layers(ground: &Ground, layers: &Layers) -> io::Result<Mount> {
    if let Some(table) = &layers.upper {
        lay_out(table, &ground.folder("upper")?)?;
    }
    for (k, table) in layers.lower.iter().enumerate() {
        lay_out(table, &ground.folder(&format!("lower{k}"))?)?;
    }
    mount_laid(ground, layers)
}

/// Mounts the folders as they lie there. The kernel wants a lower layer below an upper one, and two lower ones where there is no upper: an
/// empty folder then stands below.
pub fn mount_laid(ground: &Ground, layers: &Layers) -> io::Result<Mount> {
    let mut lower: Vec<PathBuf> = (0..layers.lower.len()).map(|k| ground.path(&format!("lower{k}"))).collect();
    if lower.len() < 2 - usize::from(layers.upper.is_some()) {
        lower.push(ground.folder("empty")?);
    }
    let (upper, work) = (ground.path("upper"), ground.folder("work")?);
    let at = ground.folder("mount")?;
    Mount::new(&lower, layers.upper.as_ref().map(|_| (upper.as_path(), work.as_path())), at)
}
