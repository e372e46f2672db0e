//! The library through its safe face.

use crate::call::Call;
use crate::case::Layers;
use crate::side::{Answer, Dirent, Page, Side, Standing, View};
use overlay::{Errno, Overlay};
use std::rc::Rc;

/// The bytes that hold any directory's whole listing: 257 entries of at most 56.
const WHOLE: usize = 16384;
/// What the lent buffer holds before a call, so that a byte written behind the page shows.
const BEFORE: u8 = 0xa5;

/// The library over some layers.
pub struct Ours {
    layers: Rc<Layers>,
    overlay: Option<Overlay>,
}

impl Ours {
    /// The library's side over layers, before its import.
    pub fn side(layers: &Rc<Layers>) -> Box<dyn Side> {
        Box::new(Ours { layers: Rc::clone(layers), overlay: None })
    }

    /// The first import makes the overlay, a later one starts it anew.
    fn import(&mut self) -> Result<Answer, Errno> {
        match &mut self.overlay {
            Some(overlay) => overlay.again()?,
            None => self.overlay = Some(Overlay::import(self.layers.upper.clone(), self.layers.lower.clone())?),
        }
        Ok(Answer::Done)
    }

    fn answer(&mut self, call: &Call<u64>) -> Result<Answer, Errno> {
        if let Call::Import = call {
            return self.import();
        }
        // After a refused import every number is unknown.
        let overlay = self.overlay.as_mut().ok_or(Errno::Enoent)?;
        match call {
            Call::Lookup { parent, name } => overlay.lookup(*parent, name).map(Answer::Node),
            Call::Count { node } => overlay.count(*node).map(|c| Answer::Count { live: c.live.into(), whiteouts: c.whiteouts.into() }),
            Call::List { node, offset, size, buffer } => list(overlay, *node, *offset, *size, *buffer).map(Answer::Page),
            Call::Forget { node, amount } => {
                overlay.forget(*node, *amount);
                Ok(Answer::Done)
            }
            Call::Node { node } => overlay.node(*node).map(|n| Answer::Seen(view(n))),
            _ => write(overlay, call),
        }
    }
}

/// The calls that write the upper layer.
fn write(overlay: &mut Overlay, call: &Call<u64>) -> Result<Answer, Errno> {
    match call {
        Call::Mknod { parent, name, kind, permissions, umask, device } => {
            overlay.mknod(*parent, name, *kind, *permissions, *umask, *device).map(Answer::Node)
        }
        Call::Create { parent, name, permissions, umask } => overlay.create(*parent, name, *permissions, *umask).map(Answer::Node),
        Call::Symlink { parent, name, content } => overlay.symlink(*parent, name, *content).map(Answer::Node),
        Call::Link { source, parent, name } => overlay.link(*source, *parent, name).map(Answer::Node),
        Call::CopyUp { node } => overlay.copy_up(*node).map(|()| Answer::Done),
        other => unreachable!("{} does not write", other.which()),
    }
}

fn list(overlay: &mut Overlay, node: u64, offset: u64, size: u64, length: usize) -> Result<Page, Errno> {
    let mut buffer = vec![BEFORE; length];
    let page = match overlay.list(node, offset, size, &mut buffer) {
        Ok(page) => page,
        Err(errno) if buffer.iter().all(|b| *b == BEFORE) => return Err(errno),
        // No refusal writes the buffer: one that does is shown as the page that it wrote, so that it differs.
        Err(_) => return Ok(Page { spilled: true, ..Page::default() }),
    };
    let (written, behind) = buffer.split_at(page.bytes);
    let dirents = overlay::dirents(written);
    let spilled = encoded(&dirents) != written || behind.iter().any(|b| *b != BEFORE);
    let entries = dirents.into_iter().map(|d| Dirent { name: d.name, inode: d.inode, offset: d.offset, kind: d.kind }).collect();
    Ok(Page { entries, remains: page.remains, spilled })
}

/// The bytes that a page of these entries has.
fn encoded(dirents: &[overlay::Dirent]) -> Vec<u8> {
    let mut bytes = Vec::new();
    for d in dirents {
        bytes.extend(d.inode.to_le_bytes().into_iter().chain(d.offset.to_le_bytes()));
        bytes.extend((d.name.len() as u32).to_le_bytes().into_iter().chain(d.kind.to_le_bytes()));
        bytes.extend(&d.name);
        bytes.resize(bytes.len().next_multiple_of(8), 0);
    }
    bytes
}

fn view(n: overlay::Node) -> View {
    View {
        number: n.number.into(),
        name: n.name,
        stack: n.stack,
        whiteout: n.whiteout,
        loaded: n.loaded,
        count: n.count.into(),
        children: Vec::new(),
    }
}

impl Side for Ours {
    fn call(&mut self, call: &Call<u64>) -> Answer {
        self.answer(call).unwrap_or_else(|errno| Answer::Refused(errno as u32))
    }

    fn standing(&self) -> Standing {
        let Some(overlay) = &self.overlay else { return Standing { upper: self.layers.upper.clone(), ..Standing::default() } };
        let mut standing = Standing { upper: overlay.upper().cloned(), ..Standing::default() };
        for node in overlay.nodes() {
            // The state keeps a directory's children together and in order of their names.
            let (number, parent, name) = (u64::from(node.number), u64::from(node.parent), node.name.clone());
            if let Some(above) = standing.nodes.get_mut(&parent) {
                above.children.push((name, number));
            }
            standing.nodes.insert(number, view(node));
        }
        standing
    }

    fn whole(&self, node: u64) -> Vec<Dirent> {
        let Some(overlay) = &self.overlay else { return Vec::new() };
        list(&mut overlay.clone(), node, 0, WHOLE as u64, WHOLE).map_or(Vec::new(), |page| page.entries)
    }
}
