//! One side of a comparison, behind a small trait: the library, the Rust text, and whatever stands in for one of them in a test.

use crate::call::{Call, Name};
use crate::case::Layers;
use overlay::{Record, Table};
use std::collections::HashMap;
use std::fmt;
use std::rc::Rc;

/// What a call answered. Node numbers are the side's own.
#[derive(Clone, PartialEq, Eq, Debug)]
pub enum Answer {
    /// The errno; a Rust error that has none is 0.
    Refused(u32),
    Done,
    Node(u64),
    Count {
        live: u64,
        whiteouts: u64,
    },
    Page(Page),
    Seen(View),
}

/// As the answer's lines of a replay say it, a page's entries left out.
impl fmt::Display for Answer {
    fn fmt(&self, f: &mut fmt::Formatter<'_>) -> fmt::Result {
        match self {
            Answer::Refused(errno) => write!(f, "errno {errno}"),
            Answer::Done => f.write_str("errno 0"),
            Answer::Node(number) => write!(f, "errno 0 node {number}"),
            Answer::Count { live, whiteouts } => write!(f, "errno 0 live {live} whiteouts {whiteouts}"),
            Answer::Page(page) => write!(f, "errno 0 entries {}{}", page.entries.len(), if page.remains { " entries remain" } else { "" }),
            Answer::Seen(view) => write!(f, "errno 0 node {} count {} stack {:?}", view.number, view.count, view.stack),
        }
    }
}

/// What a listing wrote. The Rust answers its whole directory, in the order of its hash map.
#[derive(Clone, PartialEq, Eq, Debug, Default)]
pub struct Page {
    pub entries: Vec<Dirent>,
    pub remains: bool,
    /// Whether the bytes are not exactly those of the entries, or a byte behind them was written too.
    pub spilled: bool,
}

/// An entry of a listing.
#[derive(Clone, PartialEq, Eq, PartialOrd, Ord, Debug)]
pub struct Dirent {
    pub name: Name,
    pub inode: u64,
    pub offset: u64,
    pub kind: u32,
}

/// A node as a side has it.
#[derive(Clone, PartialEq, Eq, Debug, Default)]
pub struct View {
    pub number: u64,
    pub name: Name,
    /// Layer and record, topmost first; layer 0 is the upper one.
    pub stack: Vec<(u8, u8)>,
    pub whiteout: bool,
    pub loaded: bool,
    pub count: u64,
    /// The resident children in order of their names.
    pub children: Vec<(Name, u64)>,
}

impl View {
    /// The number of the child of this name.
    pub fn child(&self, name: &[u8]) -> Option<u64> {
        let at = self.children.binary_search_by(|(n, _)| n.as_slice().cmp(name)).ok()?;
        Some(self.children[at].1)
    }

    /// Whether its top record is in the upper layer.
    pub fn is_upper(&self) -> bool {
        self.stack.first().is_some_and(|(layer, _)| *layer == 0)
    }
}

/// Everything that a side has after a call.
#[derive(Clone, PartialEq, Eq, Debug, Default)]
pub struct Standing {
    pub nodes: HashMap<u64, View>,
    pub upper: Option<Table>,
}

/// The root's number on every side.
pub const ROOT: u64 = overlay::ROOT;

impl Standing {
    /// The node's number that a path leads to, by resident nodes alone.
    pub fn number(&self, path: &[Name]) -> Option<u64> {
        path.iter().try_fold(ROOT, |at, name| self.nodes.get(&at)?.child(name)).filter(|at| self.nodes.contains_key(at))
    }

    /// The number of the directory that has a node as its child; none for the root.
    pub fn above(&self, number: u64) -> Option<u64> {
        self.nodes.values().find(|v| v.children.iter().any(|(_, child)| *child == number)).map(|v| v.number)
    }

    /// The paths of all resident nodes with their numbers, each directory before its children.
    pub fn paths(&self) -> Vec<(Vec<Name>, u64)> {
        let mut found = vec![(Vec::new(), ROOT)];
        let mut next = 0;
        while let Some((path, number)) = found.get(next).cloned() {
            for (name, child) in self.nodes.get(&number).map_or(&[][..], |v| &v.children) {
                found.push((path.iter().chain([name]).cloned().collect(), *child));
            }
            next += 1;
        }
        found.retain(|(_, number)| self.nodes.contains_key(number));
        found
    }

    /// A node's top record, the lower layers being those of `layers`.
    pub fn top(&self, number: u64, layers: &Layers) -> Option<Record> {
        let (layer, place) = *self.nodes.get(&number)?.stack.first()?;
        let upper = self.upper.as_ref().filter(|_| layer == 0);
        match upper {
            Some(table) => table.record(place.into()),
            None => layers.record((layer, place)),
        }
    }
}

/// One side: an overlay over the layers that it was made for.
pub trait Side {
    /// The call's answer. Import reads the lower layers and the upper one as the calls before left it.
    fn call(&mut self, call: &Call<u64>) -> Answer;
    /// Everything that it has now.
    fn standing(&self) -> Standing;
    /// The whole listing, in its order, of a directory that was just listed: so nothing changes.
    fn whole(&self, node: u64) -> Vec<Dirent>;
}

/// Makes a side over layers, before its import.
pub type Make<'a> = &'a dyn Fn(&Rc<Layers>) -> Box<dyn Side>;

/// The two sides of a comparison. The first is judged, the second has what the listed differences call the Rust's behaviour.
#[derive(Clone, Copy)]
pub struct Sides<'a> {
    pub ours: Make<'a>,
    pub rust: Make<'a>,
}
