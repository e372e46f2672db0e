//! The Rust text, through the crate `oracle`.

use crate::call::Call;
use crate::case::Layers;
use crate::side::{Answer, Dirent, Page, ROOT, Side, Standing, View};
use oracle::Oracle;
use overlay::Table;
use std::rc::Rc;

/// The Rust over some layers.
pub struct Rust {
    layers: Rc<Layers>,
    oracle: Option<Oracle>,
}

impl Rust {
    /// The Rust's side over layers, before its import.
    pub fn side(layers: &Rc<Layers>) -> Box<dyn Side> {
        Box::new(Rust { layers: Rc::clone(layers), oracle: None })
    }

    fn upper(&self) -> Option<Table> {
        match &self.oracle {
            Some(oracle) => oracle.upper().map(|bytes| Table::from_bytes(&bytes).expect("the oracle's table has 8192 bytes")),
            None => self.layers.upper.clone(),
        }
    }

    /// Import reads the upper layer as the calls before left it.
    fn import(&mut self) -> Result<Answer, i32> {
        let upper = self.upper();
        let lower: Vec<&[u8]> = self.layers.lower.iter().map(Table::bytes).collect();
        self.oracle = Some(Oracle::import(upper.as_ref().map(Table::bytes), &lower)?);
        Ok(Answer::Done)
    }

    fn answer(&mut self, call: &Call<u64>) -> Result<Answer, i32> {
        if let Call::Import = call {
            return self.import();
        }
        let oracle = self.oracle.as_ref().ok_or(2)?;
        match call {
            Call::Import => unreachable!("answered above"),
            Call::Lookup { parent, name } => oracle.lookup(*parent, name).map(Answer::Node),
            Call::Count { node } => count(oracle, *node),
            Call::List { size: 0, .. } => Ok(Answer::Page(Page::default())),
            Call::List { node, .. } => list(oracle, *node).map(Answer::Page),
            Call::Forget { node, amount } => {
                oracle.forget(*node, *amount);
                Ok(Answer::Done)
            }
            Call::Node { node } => oracle.view(*node).map(|v| Answer::Seen(view(v))).ok_or(2),
            Call::Mknod { parent, name, kind, permissions, umask, device } => {
                oracle.mknod(*parent, name, *kind, *permissions, *umask, *device).map(Answer::Node)
            }
            Call::Create { parent, name, permissions, umask } => oracle.create(*parent, name, *permissions, *umask).map(Answer::Node),
            Call::Symlink { parent, name, content } => oracle.symlink(*parent, name, *content).map(Answer::Node),
            Call::Link { source, parent, name } => oracle.link(*source, *parent, name).map(Answer::Node),
            Call::CopyUp { node } => oracle.copy_up(*node).map(|()| Answer::Done),
        }
    }
}

/// Difference 2: the Rust counts what is resident, so the driver loads before it counts. The load's refusal is left to the count.
fn count(oracle: &Oracle, node: u64) -> Result<Answer, i32> {
    let _ = oracle.load(node);
    let (live, whiteouts) = oracle.count(node)?;
    Ok(Answer::Count { live, whiteouts })
}

/// The whole directory, in the order of the Rust's hash map; an entry's offset says nothing there.
fn list(oracle: &Oracle, node: u64) -> Result<Page, i32> {
    let entries = oracle.list(node)?.into_iter().map(|l| Dirent { name: l.name, inode: l.inode, offset: 0, kind: l.kind }).collect();
    Ok(Page { entries, ..Page::default() })
}

fn view(v: oracle::View) -> View {
    let mut children = v.children;
    children.sort();
    View { number: v.number, name: v.name, stack: v.stack, whiteout: v.whiteout, loaded: v.loaded, count: v.count, children }
}

impl Side for Rust {
    fn call(&mut self, call: &Call<u64>) -> Answer {
        self.answer(call).unwrap_or_else(|errno| Answer::Refused(errno as u32))
    }

    fn standing(&self) -> Standing {
        let mut standing = Standing { upper: self.upper(), ..Standing::default() };
        let Some(oracle) = &self.oracle else { return standing };
        let mut next = vec![ROOT];
        while let Some(number) = next.pop() {
            if let Some(v) = oracle.view(number) {
                next.extend(v.children.iter().map(|(_, child)| child));
                standing.nodes.insert(number, view(v));
            }
        }
        standing
    }

    fn whole(&self, node: u64) -> Vec<Dirent> {
        let Some(oracle) = &self.oracle else { return Vec::new() };
        list(oracle, node).map_or(Vec::new(), |page| page.entries)
    }
}
