//! One name in 1 to 4 layers: absent, a file, a whiteout, a directory, an opaque directory in each, with one name below a directory; and
//! every single call on it. What lies outside the Rust's domain at a call that writes (a malformed name, mknod of a whiteout) is asked of
//! at most three layers.

use crate::call::{Call, Name, Target, Which};
use crate::case::{Case, Layers};
use crate::cases::Diverged;
use crate::draft::{Draft, directory, whiteout};
use crate::generate::LONG;
use crate::listed::is_malformed;
use crate::run::{Found, Run, Step};
use crate::side::Sides;
use crate::tally::Tally;
use overlay::{Kind, Record, Table};
use std::rc::Rc;

/// What a layer has under a name.
#[derive(Clone, Copy, PartialEq, Eq, Debug)]
enum Item {
    Absent,
    File,
    Whiteout,
    Directory,
    Opaque,
}

const ITEMS: [Item; 5] = [Item::Absent, Item::File, Item::Whiteout, Item::Directory, Item::Opaque];
const UPPER: &[u8] = b"a";
const BELOW: &[u8] = b"b";

impl Item {
    fn record(self) -> Option<Record> {
        match self {
            Item::Absent => None,
            Item::File => Some(Record::new(Kind::Regular, 0o644)),
            Item::Whiteout => Some(whiteout()),
            Item::Directory => Some(directory(false)),
            Item::Opaque => Some(directory(true)),
        }
    }

    /// What may stand below it.
    fn below(self) -> &'static [Item] {
        if matches!(self, Item::Directory | Item::Opaque) { &ITEMS } else { &ITEMS[..1] }
    }
}

/// The 13 tables of one name, and one below it.
fn tables() -> Vec<Table> {
    let pairs = ITEMS.into_iter().flat_map(|item| item.below().iter().map(move |below| (item, *below)));
    pairs.map(|(item, below)| table(item, below)).collect()
}

fn table(item: Item, below: Item) -> Table {
    let mut draft = Draft::new(&directory(false));
    if let Some(place) = item.record().and_then(|record| draft.add(1, UPPER, &record)) {
        below.record().and_then(|record| draft.add(place, BELOW, &record));
    }
    draft.table()
}

/// All layers: each of the tables in each of 1 to 4 layers, with and without an upper one.
fn all_layers() -> impl Iterator<Item = Layers> {
    let tables = tables();
    let shapes = (0..=3).flat_map(|lower| [true, false].map(|upper| (upper, lower))).filter(|(upper, lower)| *upper || *lower > 0);
    shapes.flat_map(move |(upper, lower)| {
        let tables = tables.clone();
        let layers = lower + usize::from(upper);
        (0..tables.len().pow(layers as u32)).map(move |mut choice| {
            let mut next = || {
                let chosen = tables[choice % tables.len()].clone();
                choice /= tables.len();
                chosen
            };
            Layers { upper: upper.then(&mut next), lower: (0..lower).map(|_| next()).collect() }
        })
    })
}

/// Single calls, each on what stands after the import and `first`.
struct Group {
    first: Option<Call<Target>>,
    singles: Vec<Call<Target>>,
}

/// The layers of which every call is asked.
const ALL_ASKED: usize = 3;

/// Whether a call that writes lies outside the Rust's domain.
fn outside(call: &Call<Target>) -> bool {
    let whiteout = matches!(call, Call::Mknod { kind: 2, device: 0, .. });
    call.which().writes() && (whiteout || call.name().is_some_and(is_malformed))
}

/// Every single call on the root, on the name, and on the one below: the latter behind a count that loads the directory.
fn groups(calls: &[Which]) -> [Group; 2] {
    let path = |names: &[&[u8]]| Target::Path(names.iter().map(|n| n.to_vec()).collect());
    let (root, upper, below) = (path(&[]), path(&[UPPER]), path(&[UPPER, BELOW]));
    let asked = |all: Vec<Call<Target>>| all.into_iter().filter(|call| calls.contains(&call.which())).collect();
    let on_name: Vec<_> = [Call::Import].into_iter().chain(calls_on(&root, &upper)).chain(calls_on(&upper, &upper)).collect();
    let on_below: Vec<_> = calls_on(&below, &upper).into_iter().chain(links(&below, [&root, &upper])).collect();
    [Group { first: None, singles: asked(on_name) }, Group { first: Some(Call::Count { node: upper.clone() }), singles: asked(on_below) }]
}

/// Links of a node in each of these directories, under names that are taken, free and too long.
fn links(source: &Target, parents: [&Target; 2]) -> Vec<Call<Target>> {
    let names: [&[u8]; 4] = [UPPER, BELOW, b"new", LONG.as_bytes()];
    let link = |parent: &Target, name: &[u8]| Call::Link { source: source.clone(), parent: parent.clone(), name: name.to_vec() };
    parents.iter().flat_map(|parent| names.map(|name| link(parent, name))).collect()
}

fn calls_on(node: &Target, source: &Target) -> Vec<Call<Target>> {
    let at = || node.clone();
    let mut calls = vec![
        Call::Count { node: at() },
        Call::List { node: at(), offset: 0, size: 4096, buffer: 4096 },
        Call::List { node: at(), offset: 1, size: 64, buffer: 64 },
        Call::Forget { node: at(), amount: 0 },
        Call::Node { node: at() },
        Call::CopyUp { node: at() },
    ];
    let names: [&[u8]; 8] = [UPPER, BELOW, b"new", b"", b".", b"..", b"a/b", LONG.as_bytes()];
    for name in names.map(<[u8]>::to_vec) {
        calls.push(Call::Lookup { parent: at(), name: name.clone() });
        calls.extend(creations(node, source, name));
    }
    calls
}

fn creations(parent: &Target, source: &Target, name: Name) -> [Call<Target>; 5] {
    let (at, name) = (|| parent.clone(), || name.clone());
    [
        Call::Mknod { parent: at(), name: name(), kind: Kind::Fifo.number(), permissions: 0o640, umask: 0o022, device: 0 },
        Call::Mknod { parent: at(), name: name(), kind: Kind::Character.number(), permissions: 0, umask: 0, device: 0 },
        Call::Create { parent: at(), name: name(), permissions: 0o666, umask: 0o022 },
        Call::Symlink { parent: at(), name: name(), content: 7 },
        Call::Link { source: source.clone(), parent: at(), name: name() },
    ]
}

/// Runs them all, or until one diverges.
pub fn exhaustive_runs(sides: Sides, calls: &[Which], tally: &mut Tally) -> Option<Diverged> {
    let (all, mut inside) = (groups(calls), groups(calls));
    inside.iter_mut().for_each(|group| group.singles.retain(|call| !outside(call)));
    for (number, layers) in (0..).zip(all_layers().map(Rc::new)) {
        let asked = layers.lower.len() + usize::from(layers.upper.is_some());
        for group in if asked <= ALL_ASKED { &all } else { &inside } {
            if let Some((case, found)) = run_group(sides, &layers, group, tally) {
                return Some(Diverged { number, case, found });
            }
        }
    }
    None
}

/// A call that changed nothing on either side leaves the run as good as a new one, so that the next call is made on it.
fn run_group(sides: Sides, layers: &Rc<Layers>, group: &Group, tally: &mut Tally) -> Option<(Case, Found)> {
    let mut fresh: Option<Run> = None;
    for single in &group.singles {
        let case = Case { layers: Rc::clone(layers), calls: group.first.iter().chain([single]).cloned().collect() };
        let mut run = match fresh.take() {
            Some(run) => run,
            None => match started(sides, &case, group, tally) {
                Ok(run) => run?,
                Err(found) => return Some((case, found)),
            },
        };
        let (made, step) = run.step(single);
        tally.cases += u64::from(made.is_some());
        tally.call(made.as_ref(), &step);
        if let Step::Diverged(divergence) = step {
            return Some((case.clone(), Found { calls: case.calls.len(), divergence }));
        }
        fresh = if made.is_none() || !run.changed() { Some(run) } else { None };
    }
    None
}

/// A run after its import and the group's first call; none where a listed difference ended it, as the name is no directory.
fn started(sides: Sides, case: &Case, group: &Group, tally: &mut Tally) -> Result<Option<Run>, Found> {
    let mut run = Run::new(sides, &case.layers);
    for (calls, call) in std::iter::once(&Call::Import).chain(&group.first).enumerate() {
        let (made, step) = run.step(call);
        tally.call(made.as_ref(), &step);
        match step {
            Step::Agreed(_) | Step::Skipped => {}
            Step::Listed(_) => return Ok(None),
            Step::Diverged(divergence) => return Err(Found { calls, divergence }),
        }
    }
    Ok(Some(run))
}

#[cfg(test)]
mod tests {
    use super::*;

    #[test]
    fn all_layers_are_all() {
        assert_eq!(tables().len(), 13);
        let expected: usize = [1usize, 1, 2, 2, 3, 3, 4].iter().map(|n| 13usize.pow(*n as u32)).sum();
        assert_eq!(all_layers().count(), expected);
    }

    #[test]
    fn single_calls_are_of_those_asked() {
        let asked = [Which::Import, Which::Lookup, Which::Count];
        let groups_asked = groups(&asked);
        assert!(groups_asked.iter().flat_map(|g| &g.singles).all(|call| asked.contains(&call.which())));
        let singles = groups_asked.map(|g| g.singles.len());
        assert_eq!(singles, [1 + 2 * (1 + 8), 1 + 8], "import, and on each of three nodes a count and eight lookups");
        let all = groups(&Which::ALL);
        assert!(Which::ALL.iter().all(|w| all.iter().flat_map(|g| &g.singles).any(|call| call.which() == *w)));
        let left_out = all.iter().flat_map(|g| &g.singles).filter(|call| outside(call)).count();
        assert_eq!(left_out, 3 * (4 * 5 + 4), "on each of three nodes all creations of four names, and a whiteout of the other four");
    }
}
