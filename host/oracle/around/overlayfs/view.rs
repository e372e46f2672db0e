//! What the driver reads from the Rust's nodes.

use super::super::{Arc, Context, Ordering, OverlayFs, OverlayInode, RealInode};
use super::{number, text, Answer, Oracle};
use crate::answers::View;

impl Oracle {
    /// A node as the Rust holds it; none where the number is unknown.
    pub fn view(&self, node: u64) -> Option<View> {
        let node = self.fs.get_active_inode(node)?;
        let mut children: Vec<_> = node.childrens.lock().unwrap().iter().map(|(name, n)| (name.clone().into_bytes(), n.inode)).collect();
        children.sort();
        Some(View {
            number: node.inode,
            name: node.name.clone().into_bytes(),
            path: node.path.split('/').skip(1).map(|name| name.as_bytes().to_vec()).collect(),
            stack: stack(&self.fs, &node),
            whiteout: node.whiteout.load(Ordering::Relaxed),
            loaded: node.loaded.load(Ordering::Relaxed),
            count: node.lookups.load(Ordering::Relaxed),
            children,
        })
    }

    /// `new_from_real_inodes` alone, on what each layer's root has under a name: the stack and the whiteout mark.
    pub fn merge(&self, name: &[u8]) -> Answer<(Vec<(u8, u8)>, bool)> {
        let root = self.fs.root_node();
        let roots = root.real_inodes.lock().unwrap();
        let mut found = vec![];
        for layer_root in roots.iter() {
            found.extend(layer_root.lookup_child(&Context::default(), &text(name)).map_err(number)?);
        }
        let merged = OverlayInode::new_from_real_inodes(&text(name), 0, String::new(), found).map_err(number)?;
        Ok((stack(&self.fs, &merged), merged.whiteout.load(Ordering::Relaxed)))
    }
}

fn stack(fs: &OverlayFs, node: &OverlayInode) -> Vec<(u8, u8)> {
    node.real_inodes.lock().unwrap().iter().map(|ri| (layer(fs, ri), ri.inode as u8)).collect()
}

/// 0 is the upper layer; the lower ones count from 1.
fn layer(fs: &OverlayFs, ri: &RealInode) -> u8 {
    let lower = || fs.lower_layers.iter().position(|l| Arc::ptr_eq(l, &ri.layer)).expect("a record stands in one of the layers");
    if ri.in_upper_layer {
        0
    } else {
        1 + lower() as u8
    }
}
