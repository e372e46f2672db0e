//! One stack of layers, mounted, beside a side over the same layers.

use super::act::act;
use super::ground::Ground;
use super::mount::{Mount, mount_laid, mount_layers};
use super::tree::{difference, kernel_tree, side_tree};
use crate::call::{Call, Name, Target};
use crate::case::Layers;
use crate::side::{Answer, Make, Side};
use overlay::Kind;
use std::fmt;
use std::rc::Rc;

/// Something that the kernel does otherwise, listed in docs/DIFFERENCES.md.
#[derive(Clone, Copy, PartialEq, Eq, PartialOrd, Ord, Hash, Debug)]
pub enum Quirk {
    /// It does not look at an opaque mark on a layer's root.
    OpaqueRoot,
    /// It lists a whiteout in a directory that it does not merge, though lookup refuses the name.
    WhiteoutListed,
    /// It wants a lower layer, and two where there is no upper one.
    LowerWanted,
    /// It has no limit of nodes.
    NoNodeLimit,
}

impl fmt::Display for Quirk {
    fn fmt(&self, f: &mut fmt::Formatter<'_>) -> fmt::Result {
        f.write_str(match self {
            Quirk::OpaqueRoot => "an opaque mark on a layer's root is not looked at",
            Quirk::WhiteoutListed => "a whiteout in a directory that is not merged is listed, though lookup refuses it",
            Quirk::LowerWanted => "a lower layer is wanted, and two where there is no upper one",
            Quirk::NoNodeLimit => "there is no limit of nodes",
        })
    }
}

/// The layers as the kernel takes them: roots without marks, symlinks with the permissions and sizes that they have there.
pub fn mountable(layers: &Layers) -> (Layers, Vec<Quirk>) {
    let mut layers = layers.clone();
    let mut quirks = Vec::new();
    if layers.lower.len() < 2 - usize::from(layers.upper.is_some()) {
        quirks.push(Quirk::LowerWanted);
    }
    for table in layers.tables_mut() {
        for (place, mut record) in table.records().collect::<Vec<_>>() {
            if place == 1 && record.opaque {
                record.opaque = false;
                quirks.push(Quirk::OpaqueRoot);
            }
            if record.kind == Kind::Symlink {
                (record.permissions, record.size) = (511, 0);
            }
            table.put_record(place, &record);
        }
    }
    (layers, quirks)
}

/// What came of a call on a mount.
#[derive(Clone, Copy, PartialEq, Eq, PartialOrd, Ord, Debug)]
pub enum Acted {
    Made,
    Refused,
    /// The layers were mounted anew.
    Mounted,
    /// Not made there: its node is not resident, or it is refused by a limit that the kernel does not have, or for a name that is a path
    /// there.
    Skipped,
}

/// The refusals that the kernel has a reason for too; its order of tests is another, so that the numbers need not be equal.
const SHARED: [u32; 5] = [1, 2, 17, 20, 30];

/// A side and a mount over the same layers.
pub struct Session<'a> {
    ground: &'a Ground,
    layers: Rc<Layers>,
    side: Box<dyn Side>,
    mount: Option<Mount>,
}

impl<'a> Session<'a> {
    /// Imports on one side and mounts on the other; none where the names are more than the side has nodes for.
    pub fn new(ground: &'a Ground, make: Make, layers: &Rc<Layers>) -> Result<Option<Session<'a>>, String> {
        let mut side = make(layers);
        match side.call(&Call::Import) {
            Answer::Done => {}
            Answer::Refused(23) => return Ok(None),
            answer => return Err(format!("import: {answer}")),
        }
        let mount = mount_layers(ground, layers).map_err(|e| format!("cannot be mounted: {e}"))?;
        Ok(Some(Session { ground, layers: Rc::clone(layers), side, mount: Some(mount) }))
    }

    /// Compares the trees: the quirk that was met, or in words what differs. What lies under too many names for our nodes is not compared.
    pub fn compare(&mut self) -> Result<Option<Quirk>, String> {
        let mount = self.mount.as_ref().ok_or("nothing is mounted")?;
        let (kernel, listed) = kernel_tree(mount.path()).map_err(|e| format!("the mount cannot be walked: {e}"))?;
        let Some(ours) = side_tree(self.side.as_mut(), &self.layers)? else { return Ok(Some(Quirk::NoNodeLimit)) };
        match difference(&ours, &kernel) {
            Some(words) => Err(words),
            None => Ok((listed > 0).then_some(Quirk::WhiteoutListed)),
        }
    }

    /// Makes a call on the side and on the mount. What is accepted here has to be made there, what is refused by a number that the kernel
    /// has a reason for too has to be refused there. An import is a mount anew.
    pub fn act(&mut self, call: &Call<Target>) -> Result<Acted, String> {
        if call == &Call::Import {
            return self.again().map(|()| Acted::Mounted);
        }
        let standing = self.side.standing();
        let path = |target: &Target| match target {
            Target::Path(path) => standing.number(path).map(|number| (number, path.clone())),
            Target::Number(_) => None,
        };
        let Some(both): Option<Call<(u64, Vec<Name>)>> = call.renamed(path) else { return Ok(Acted::Skipped) };
        let numbered = both.renamed(|(number, _)| Some(*number)).expect("every node is kept");
        let pathed = both.renamed(|(_, path)| Some(path.clone())).expect("every node is kept");
        let answer = self.side.call(&numbered);
        if matches!(answer, Answer::Refused(errno) if !SHARED.contains(&errno)) {
            return Ok(Acted::Skipped);
        }
        let mount = self.mount.as_ref().ok_or("nothing is mounted")?;
        match (answer, act(mount.path(), &pathed)) {
            (Answer::Refused(_), Err(_)) => Ok(Acted::Refused),
            (Answer::Refused(errno), Ok(())) => Err(format!("{} is refused here with {errno}, the mount accepts it", call.which())),
            (_, Err(e)) => Err(format!("{} is accepted here, the mount refuses: {e}", call.which())),
            (_, Ok(())) => Ok(Acted::Made),
        }
    }

    /// Mounts anew from the folders as they lie there, and imports anew.
    pub fn again(&mut self) -> Result<(), String> {
        self.mount = None;
        self.mount = Some(mount_laid(self.ground, &self.layers).map_err(|e| format!("cannot be mounted again: {e}"))?);
        match self.side.call(&Call::Import) {
            Answer::Done => Ok(()),
            answer => Err(format!("import of what the calls left: {answer}")),
        }
    }

    pub fn side(&self) -> &dyn Side {
        self.side.as_ref()
    }

    pub fn layers(&self) -> &Layers {
        &self.layers
    }
}
