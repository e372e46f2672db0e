//! Errors planted in the library's answers: a wrapper that falsifies one answer, to see that the runs notice it.

use crate::call::{Call, Name};
use crate::case::Layers;
use crate::compare::page_of;
use crate::ours::Ours;
use crate::side::{Answer, Dirent, ROOT, Side, Standing, View};
use std::collections::{BTreeMap, HashMap};
use std::rc::Rc;

/// A planted error.
#[derive(Clone, Copy, PartialEq, Eq, Debug)]
pub enum Planted {
    /// 1: lookup answers the node of the next name.
    LookupOfNextName,
    /// 2: a count with whiteouts is one short of them.
    CountOfWhiteouts,
    /// 3: a stack ends before a later opaque directory, not after it.
    OpaqueDropped,
    /// 4: a listing shows whiteouts.
    WhiteoutListed,
    /// 5: refusal 20 is given as 2.
    RefusalNumber,
    /// 6: a listing's inode is the lowest record's, not the top one's.
    LowerInode,
    /// 7: a directory is copied up with its opaque mark.
    OpaqueCopied,
    /// 8: a file that is copied up keeps its lower record in its stack.
    StackKept,
}

impl Planted {
    pub const ALL: [Planted; 8] = [
        Planted::LookupOfNextName,
        Planted::CountOfWhiteouts,
        Planted::OpaqueDropped,
        Planted::WhiteoutListed,
        Planted::RefusalNumber,
        Planted::LowerInode,
        Planted::OpaqueCopied,
        Planted::StackKept,
    ];

    /// The error with this number, 1 to 8.
    pub fn of(number: u64) -> Option<Planted> {
        Planted::ALL.get(usize::try_from(number).ok()?.checked_sub(1)?).copied()
    }

    /// The library's side with this error in its answers.
    pub fn side(self, layers: &Rc<Layers>) -> Box<dyn Side> {
        let copied = BTreeMap::new();
        Box::new(Wrapped { inner: Ours::side(layers), error: self, layers: Rc::clone(layers), copied })
    }
}

struct Wrapped {
    inner: Box<dyn Side>,
    error: Planted,
    layers: Rc<Layers>,
    /// The nodes that calls copied up since the last import, each with the stack that it had before.
    copied: BTreeMap<u64, Vec<(u8, u8)>>,
}

impl Wrapped {
    /// Makes the call and remembers what it copied up.
    fn remembered(&mut self, call: &Call<u64>) -> Answer {
        let before = if call.which().writes() { self.inner.standing() } else { Standing::default() };
        let answer = self.inner.call(call);
        if call == &Call::Import {
            self.copied.clear();
        }
        for (number, old) in before.nodes.iter().filter(|(_, v)| !v.whiteout && !v.is_upper()) {
            if self.inner.standing().nodes.get(number).is_some_and(View::is_upper) {
                self.copied.insert(*number, old.stack.clone());
            }
        }
        answer
    }

    /// The upper layer with the marks that were copied up since the last import.
    fn marked(&self, mut standing: Standing) -> Standing {
        for (number, old) in &self.copied {
            let opaque = old.first().and_then(|r| self.layers.record(*r)).is_some_and(|r| r.opaque);
            let place = standing.nodes.get(number).and_then(|v| v.stack.first()).map(|(_, place)| usize::from(*place));
            if let Some((table, place)) = standing.upper.as_mut().zip(place.filter(|_| opaque)) {
                let record = table.record(place).expect("a node's record");
                table.put_record(place, &overlay::Record { opaque, ..record });
            }
        }
        standing
    }

    /// A node that was copied up and is no directory, with its old stack below; a directory keeps its own anyway.
    fn unshortened(&self, mut view: View) -> View {
        if let Some(old) = self.copied.get(&view.number).filter(|_| view.stack.len() == 1) {
            view.stack.extend(old);
        }
        view
    }

    fn falsified(&self, call: &Call<u64>, answer: Answer) -> Answer {
        match (self.error, call, answer) {
            (Planted::LookupOfNextName, Call::Lookup { parent, name }, Answer::Node(number)) => {
                Answer::Node(self.next_name(*parent, name).unwrap_or(number))
            }
            (Planted::CountOfWhiteouts, _, Answer::Count { live, whiteouts }) => {
                Answer::Count { live, whiteouts: whiteouts.saturating_sub(1) }
            }
            (Planted::OpaqueDropped, _, Answer::Seen(view)) => Answer::Seen(self.cut(view)),
            (Planted::StackKept, _, Answer::Seen(view)) => Answer::Seen(self.unshortened(view)),
            (Planted::RefusalNumber, _, Answer::Refused(20)) => Answer::Refused(2),
            (_, Call::List { node, offset, size, buffer }, Answer::Page(_)) => {
                Answer::Page(page_of(&self.whole(*node), *offset, *size, *buffer))
            }
            (_, _, answer) => answer,
        }
    }

    fn next_name(&self, parent: u64, name: &[u8]) -> Option<u64> {
        let standing = self.inner.standing();
        let children = &standing.nodes.get(&parent)?.children;
        children.iter().find(|(n, _)| n.as_slice() > name).map(|(_, number)| *number)
    }

    fn cut(&self, mut view: View) -> View {
        if view.stack.get(1).and_then(|r| self.layers.record(*r)).is_some_and(|r| r.opaque) && view.number != ROOT {
            view.stack.truncate(1);
        }
        view
    }

    /// The children as entries, whiteouts too.
    fn with_whiteouts(&self, node: u64, whole: Vec<Dirent>) -> Vec<Dirent> {
        let standing = self.inner.standing();
        let hidden = standing.nodes.get(&node).into_iter().flat_map(|v| &v.children).filter(|(_, n)| standing.nodes[n].whiteout);
        let shown = hidden.map(|(name, n)| dirent(name, standing.nodes[n].stack[0].1));
        let mut all: Vec<Dirent> = whole.into_iter().chain(shown).collect();
        all[2..].sort_by(|a, b| a.name.cmp(&b.name));
        all.iter_mut().zip(1..).for_each(|(d, offset)| d.offset = offset);
        all
    }

    fn with_lower_inodes(&self, node: u64, mut whole: Vec<Dirent>) -> Vec<Dirent> {
        let standing = self.inner.standing();
        for d in whole.iter_mut().skip(2) {
            let child = standing.nodes.get(&node).and_then(|v| v.child(&d.name));
            let lowest = child.and_then(|n| standing.nodes[&n].stack.last().copied());
            d.inode = lowest.map_or(d.inode, |(_, record)| record.into());
        }
        whole
    }
}

fn dirent(name: &Name, record: u8) -> Dirent {
    Dirent { name: name.clone(), inode: record.into(), offset: 0, kind: overlay::Kind::Character.number() }
}

impl Side for Wrapped {
    fn call(&mut self, call: &Call<u64>) -> Answer {
        let answer = self.remembered(call);
        self.falsified(call, answer)
    }

    fn standing(&self) -> Standing {
        let mut standing = self.inner.standing();
        let each = |nodes: HashMap<u64, View>, f: &dyn Fn(View) -> View| nodes.into_iter().map(|(n, v)| (n, f(v))).collect();
        match self.error {
            Planted::OpaqueDropped => standing.nodes = each(standing.nodes, &|v| self.cut(v)),
            Planted::StackKept => standing.nodes = each(standing.nodes, &|v| self.unshortened(v)),
            Planted::OpaqueCopied => return self.marked(standing),
            _ => {}
        }
        standing
    }

    fn whole(&self, node: u64) -> Vec<Dirent> {
        let whole = self.inner.whole(node);
        match self.error {
            Planted::WhiteoutListed if whole.len() >= 2 => self.with_whiteouts(node, whole),
            Planted::LowerInode => self.with_lower_inodes(node, whole),
            _ => whole,
        }
    }
}
