//! What a call needs by document 01's counting: nodes for a load, places of the upper layer for a call that writes.

use crate::call::{Call, Name};
use crate::case::Layers;
use crate::side::{Standing, View};
use overlay::{Kind, Record, Table};
use std::collections::BTreeSet;

/// The most nodes, the root included.
pub const NODES: usize = 256;
/// The most records, and the most entries, of a layer.
pub const PLACES: usize = 128;
/// The most bytes of a new name.
pub const NAME: usize = 28;

/// What stands before a call on our side, and the layers below it.
#[derive(Clone, Copy)]
pub struct Before<'a> {
    pub standing: &'a Standing,
    pub layers: &'a Layers,
}

impl<'a> Before<'a> {
    pub fn node(&self, number: u64) -> Option<&'a View> {
        self.standing.nodes.get(&number)
    }

    /// A known node that is no whiteout.
    pub fn live(&self, number: u64) -> Option<&'a View> {
        self.node(number).filter(|v| !v.whiteout)
    }

    pub fn kind(&self, number: u64) -> Option<Kind> {
        self.standing.top(number, self.layers).map(|r| r.kind)
    }

    pub fn is_directory(&self, number: u64) -> bool {
        self.kind(number) == Some(Kind::Directory)
    }

    fn table(&self, layer: u8) -> Option<&'a Table> {
        self.standing.upper.as_ref().filter(|_| layer == 0).or_else(|| self.layers.table(layer))
    }

    /// The names that a directory with this stack merges.
    fn names(&self, stack: &[(u8, u8)]) -> BTreeSet<Name> {
        let mut names = BTreeSet::new();
        for (layer, place) in stack {
            let Some(table) = self.table(*layer) else { break };
            names.extend(table.entries().filter(|(_, e)| e.parent == *place).map(|(_, e)| e.name));
            if table.record(usize::from(*place)).is_some_and(|r| r.opaque) {
                break;
            }
        }
        names
    }

    /// Whether the nodes that an import needs are too many.
    pub fn import_overflows(&self) -> bool {
        let layers = (0..=3).filter(|layer| self.layers.table(*layer).is_some());
        self.names(&layers.map(|layer| (layer, 1)).collect::<Vec<_>>()).len() + 1 > NODES
    }

    /// The nodes there are once a directory is loaded, places not counted.
    fn nodes_loaded(&self, number: u64) -> usize {
        let missing = |v: &View| self.names(&v.stack).iter().filter(|n| v.child(n).is_none()).count();
        self.standing.nodes.len() + self.node(number).filter(|v| !v.loaded).map_or(0, missing)
    }

    /// Whether the nodes that a load needs are too many; a load that needs none is not refused.
    pub fn load_overflows(&self, number: u64) -> bool {
        let loaded = self.nodes_loaded(number);
        loaded > self.standing.nodes.len() && loaded > NODES
    }

    /// Whether a name of a directory has a node or gets one by loading.
    pub fn is_merged(&self, parent: u64, name: &[u8]) -> bool {
        self.node(parent).is_some_and(|v| v.child(name).is_some() || (!v.loaded && self.names(&v.stack).contains(name)))
    }

    /// Whether there is no place for the node of a name that has none.
    pub fn name_overflows(&self, parent: u64, name: &[u8]) -> bool {
        !self.is_merged(parent, name) && self.nodes_loaded(parent) + 1 > NODES
    }

    /// Whether a directory has the name live, loaded or not.
    pub fn is_live_name(&self, parent: u64, name: &[u8]) -> bool {
        let Some(above) = self.node(parent) else { return false };
        match above.child(name) {
            Some(number) => self.live(number).is_some(),
            None => !above.loaded && self.records_in(&above.stack, name).first().is_some_and(|r| !r.is_whiteout()),
        }
    }

    /// The records of a name in a directory, topmost first, those that a whiteout hides too.
    pub fn records(&self, parent: u64, name: &[u8]) -> Vec<Record> {
        self.node(parent).map_or(Vec::new(), |v| self.records_in(&v.stack, name))
    }

    /// The same in a directory with this stack.
    fn records_in(&self, stack: &[(u8, u8)], name: &[u8]) -> Vec<Record> {
        let mut records = Vec::new();
        for (layer, place) in stack {
            let Some(table) = self.table(*layer) else { break };
            let named = table.entries().find(|(_, e)| e.parent == *place && e.name == name);
            records.extend(named.and_then(|(_, e)| table.record(e.child.into())));
            if table.record(usize::from(*place)).is_some_and(|r| r.opaque) {
                break;
            }
        }
        records
    }
}

/// The upper layer's places that a call changes.
#[derive(Clone, Copy, PartialEq, Eq, Debug, Default)]
pub struct Places {
    /// Directories made and a file copied up: each takes a record and an entry.
    pub copies: usize,
    /// A record made beside its entry.
    pub record: usize,
    /// The entry of the new name.
    pub entry: usize,
    /// Whether an upper whiteout's entry goes, and whether its record goes with it.
    pub whiteout: bool,
    pub freed: usize,
}

impl Places {
    /// The records and entries after the whole call, given those before it.
    fn after(&self, (records, entries): (usize, usize)) -> (usize, usize) {
        let entries_after = entries + self.copies + self.entry - usize::from(self.whiteout);
        (records + self.copies + self.record - self.freed, entries_after)
    }

    /// Whether document 01 refuses with 28: decided on the numbers after the whole call.
    pub fn overflow(&self, used: (usize, usize)) -> bool {
        let (records, entries) = self.after(used);
        records > PLACES || entries > PLACES
    }

    /// Whether all records or all entries are used after the call.
    pub fn fills(&self, used: (usize, usize)) -> bool {
        let (records, entries) = self.after(used);
        records == PLACES || entries == PLACES
    }

    /// Whether the copies alone, before a whiteout goes, need a place that there is not.
    pub fn overflow_before_deletion(&self, (records, entries): (usize, usize)) -> bool {
        records + self.copies > PLACES || entries + self.copies > PLACES
    }
}

/// How many records and entries the upper layer has.
pub fn used(standing: &Standing) -> (usize, usize) {
    standing.upper.as_ref().map_or((0, 0), |t| (t.records().count(), t.entries().count()))
}

/// The places that an accepted call takes and frees.
pub fn places(b: &Before, call: &Call<u64>) -> Places {
    let mut copied = BTreeSet::new();
    let mut places = Places::default();
    match call {
        Call::Mknod { parent, .. } | Call::Create { parent, .. } | Call::Symlink { parent, .. } => {
            missing(b, *parent, &mut copied);
            places.record = 1;
        }
        Call::Link { source, parent, .. } => {
            missing(b, *source, &mut copied);
            missing(b, *parent, &mut copied);
        }
        Call::CopyUp { node } => missing(b, *node, &mut copied),
        _ => {}
    }
    places.copies = copied.len();
    if let (Some(parent), Some(name)) = (call.about(), call.name()) {
        places.entry = 1;
        whiteout_gone(b, *parent, name, &mut places);
    }
    places
}

/// The nodes from this one up whose top record is not in the upper layer.
fn missing(b: &Before, number: u64, copied: &mut BTreeSet<u64>) {
    let mut at = Some(number);
    while let Some(number) = at.filter(|n| b.node(*n).is_some_and(|v| !v.is_upper())) {
        copied.insert(number);
        at = b.standing.above(number);
    }
}

/// An upper whiteout of the name: its entry goes, and its record if no other entry shares it.
fn whiteout_gone(b: &Before, parent: u64, name: &[u8], places: &mut Places) {
    let Some((upper, above)) = b.standing.upper.as_ref().zip(b.node(parent).filter(|v| v.is_upper())) else { return };
    let directory = above.stack[0].1;
    let Some((_, entry)) = upper.entries().find(|(_, e)| e.parent == directory && e.name == name) else { return };
    if upper.record(entry.child.into()).is_some_and(|r| r.is_whiteout()) {
        places.whiteout = true;
        places.freed = usize::from(upper.entries().filter(|(_, e)| e.child == entry.child).count() == 1);
    }
}
