//! The next call, chosen along what stands on our side.

use super::{ABSENT, LONG, NAMES};
use crate::call::{Call, Name, Target, Which};
use crate::case::Layers;
use crate::random::Random;
use crate::side::{ROOT, Standing, View};
use overlay::Kind;

/// Numbers that no node has; the third is the root's in its lower 32 bits.
const UNKNOWN: [u64; 4] = [0, u32::MAX as u64, (1 << 32) + 1, u64::MAX];
const PERMISSIONS: [u32; 4] = [0o644, 0o755, 0, 0o7777];
const UMASKS: [u32; 4] = [0, 0o022, 0o777, 0o7777];

/// How often each call is chosen among those that are to be run.
fn weight(which: Which) -> usize {
    match which {
        Which::Import => 6,
        Which::Lookup => 40,
        Which::Count => 14,
        Which::List => 20,
        Which::Forget => 12,
        Which::Node => 5,
        Which::Mknod | Which::Symlink => 14,
        Which::Create | Which::Link => 28,
        Which::CopyUp => 20,
    }
}

/// What the choice is made from.
struct Choice<'a> {
    random: &'a mut Random,
    standing: &'a Standing,
    layers: &'a Layers,
    paths: Vec<(Vec<Name>, u64)>,
}

/// A call inside the domain, of one of these sorts.
pub fn next_call(random: &mut Random, calls: &[Which], standing: &Standing, layers: &Layers) -> Call<Target> {
    let weights: Vec<(usize, Which)> = calls.iter().map(|which| (weight(*which), *which)).collect();
    let which = *random.weighted(&weights);
    let mut choice = Choice { random, standing, layers, paths: standing.paths() };
    match which {
        Which::Import => Call::Import,
        Which::Lookup => choice.lookup(),
        Which::Count => Call::Count { node: choice.node() },
        Which::List => choice.list(),
        Which::Forget => choice.forget(),
        Which::Node => Call::Node { node: choice.node() },
        Which::Mknod => choice.mknod(),
        Which::Create => choice.create(),
        Which::Symlink => choice.symlink(),
        Which::Link => choice.link(),
        Which::CopyUp => Call::CopyUp { node: choice.copied_up() },
    }
}

/// A listing of the first directory that is not loaded; none where all are. So a walk goes down to the deepest names.
pub fn next_load(standing: &Standing, layers: &Layers) -> Option<Call<Target>> {
    let is_directory = |number: u64| standing.top(number, layers).is_some_and(|r| r.kind == Kind::Directory);
    let unloaded = |number: u64| standing.nodes.get(&number).is_some_and(|v| !v.loaded && !v.whiteout);
    let (path, _) = standing.paths().into_iter().find(|(_, number)| unloaded(*number) && is_directory(*number))?;
    Some(Call::List { node: Target::Path(path), offset: 0, size: 16384, buffer: 16384 })
}

/// Whether a copy-up of this node lies inside the domain: directories, regular files, and symlinks of permissions 511 and size 0. One
/// whose top record is upper is not copied.
pub fn copyable(standing: &Standing, layers: &Layers, number: u64) -> bool {
    let Some(node) = standing.nodes.get(&number) else { return true };
    let Some(top) = standing.top(number, layers) else { return false };
    match top.kind {
        _ if node.is_upper() || node.whiteout => true,
        Kind::Directory | Kind::Regular => true,
        Kind::Symlink => top.permissions == 511 && top.size == 0,
        _ => false,
    }
}

impl Choice<'_> {
    fn among(&mut self, wanted: impl Fn(&Self, &View) -> bool) -> Option<Target> {
        let fits: Vec<usize> =
            (0..self.paths.len()).filter(|i| self.standing.nodes.get(&self.paths[*i].1).is_some_and(|v| wanted(self, v))).collect();
        let i = if fits.is_empty() { return None } else { *self.random.pick(&fits) };
        Some(Target::Path(self.paths[i].0.clone()))
    }

    fn unknown(&mut self) -> Target {
        Target::Number(*self.random.pick(&UNKNOWN))
    }

    /// A directory, the root often.
    fn directory(&mut self) -> Target {
        let any = |c: &Self, v: &View| c.standing.top(v.number, c.layers).is_some_and(|r| r.kind == Kind::Directory);
        let chosen = if self.random.chance(25) { None } else { self.among(any) };
        chosen.unwrap_or(Target::Path(Vec::new()))
    }

    /// A node: a directory more often than not, at times a number that no node has.
    fn node(&mut self) -> Target {
        match self.random.below(100) {
            0..4 => self.unknown(),
            4..74 => self.directory(),
            _ => self.among(|_, _| true).unwrap_or(Target::Path(Vec::new())),
        }
    }

    /// A node to have a name in: what is no directory ends a case by a listed difference, so it comes up less.
    fn parent(&mut self) -> Target {
        if self.random.chance(70) { self.directory() } else { self.node() }
    }

    /// A node whose copy-up lies inside the domain.
    fn copied(&mut self) -> Target {
        let chosen = self.node();
        let inside = match &chosen {
            Target::Number(_) => true,
            Target::Path(path) => self.standing.number(path).is_none_or(|n| copyable(self.standing, self.layers, n)),
        };
        if inside { chosen } else { self.among(|c, v| copyable(c.standing, c.layers, v.number)).unwrap_or(Target::Path(Vec::new())) }
    }

    /// A directory to write in more often than not.
    fn written(&mut self) -> Target {
        match self.random.below(100) {
            0..82 => self.directory(),
            82..86 => self.among(|_, v| v.whiteout).unwrap_or(Target::Path(Vec::new())),
            _ => self.copied(),
        }
    }

    /// What a copy-up copies: something of a lower layer more often than not.
    fn copied_up(&mut self) -> Target {
        let lower = |c: &Self, v: &View| !v.is_upper() && !v.whiteout && copyable(c.standing, c.layers, v.number);
        let chosen = if self.random.chance(60) { self.among(lower) } else { None };
        chosen.unwrap_or_else(|| self.copied())
    }

    /// What can be linked more often than not.
    fn source(&mut self) -> Target {
        let file = |c: &Self, v: &View| {
            let kind = c.standing.top(v.number, c.layers).map(|r| r.kind);
            !v.whiteout && kind != Some(Kind::Directory) && copyable(c.standing, c.layers, v.number)
        };
        let chosen = match self.random.below(100) {
            0..45 => self.among(file),
            45..80 => self.among(|c, v| !v.is_upper() && file(c, v)).or_else(|| self.among(file)),
            _ => None,
        };
        chosen.unwrap_or_else(|| self.copied())
    }

    /// One of the few names, a resident child's, an absent one, one of 29 bytes, or one with a "/".
    fn name(&mut self, parent: &Target) -> Name {
        match self.random.below(100) {
            0..50 => self.random.pick(&NAMES).as_bytes().to_vec(),
            50..92 => self.child_name(parent).unwrap_or(NAMES[0].into()),
            92..96 => ABSENT.into(),
            96..98 => LONG.into(),
            _ => b"a/b".to_vec(),
        }
    }

    /// A name to make: a whiteout's and a free one more often than one that is taken.
    fn new_name(&mut self, parent: &Target) -> Name {
        match self.random.below(100) {
            0..50 => self.random.pick(&NAMES).as_bytes().to_vec(),
            50..75 => format!("new{}", self.random.below(10)).into_bytes(),
            75..90 => self.child_where(parent, |v| v.whiteout).unwrap_or(NAMES[1].into()),
            90..95 => self.child_name(parent).unwrap_or(NAMES[0].into()),
            95..98 => LONG.into(),
            _ => b"a/b".to_vec(),
        }
    }

    fn child_name(&mut self, parent: &Target) -> Option<Name> {
        self.child_where(parent, |_| true)
    }

    fn child_where(&mut self, parent: &Target, wanted: impl Fn(&View) -> bool) -> Option<Name> {
        let number = match parent {
            Target::Path(path) => self.standing.number(path)?,
            Target::Number(number) => *number,
        };
        let children = self.standing.nodes.get(&number)?.children.iter();
        let fits: Vec<&Name> = children.filter(|(_, n)| self.standing.nodes.get(n).is_some_and(&wanted)).map(|(name, _)| name).collect();
        if fits.is_empty() { None } else { Some((*self.random.pick(&fits)).clone()) }
    }

    fn lookup(&mut self) -> Call<Target> {
        let parent = self.parent();
        Call::Lookup { name: self.name(&parent), parent }
    }

    /// Whole pages more often than parts; a buffer shorter than the size at times.
    fn list(&mut self) -> Call<Target> {
        let node = self.node();
        let size = *self.random.pick(&[16384, 4096, 4096, 96, 64, 63, 32, 31, 0, 120]);
        let offset = if self.random.chance(60) { 0 } else { *self.random.pick(&[1, 2, 3, 4, 7, 300, u64::MAX]) };
        let buffer = if self.random.chance(85) { size as usize } else { *self.random.pick(&[0, 24, 32, 64, 200]) };
        Call::List { node, offset, size, buffer }
    }

    /// Never to 0, which lies outside the domain.
    fn forget(&mut self) -> Call<Target> {
        let (node, most) = match self.random.below(10) {
            0 => (self.unknown(), 3),
            1 => (Target::Path(Vec::new()), u64::MAX - 1),
            _ => match self.among(|_, v| v.count > 1 && v.number != ROOT) {
                Some(Target::Path(path)) => {
                    let count = self.standing.number(&path).and_then(|n| self.standing.nodes.get(&n)).map_or(1, |v| v.count);
                    (Target::Path(path), count - 1)
                }
                _ => (self.node(), 0),
            },
        };
        Call::Forget { node, amount: self.random.number() % (most + 1) }
    }

    fn mknod(&mut self) -> Call<Target> {
        let parent = self.written();
        let kind = *self.random.pick(&[Kind::Fifo, Kind::Character, Kind::Block, Kind::Regular, Kind::Socket]);
        // A whiteout, which the Rust makes, ends a case; a block device with number 0 is none.
        let device = if self.random.chance(6) { 0 } else { self.random.from_to(1, u32::MAX as usize) as u64 };
        Call::Mknod {
            name: self.new_name(&parent),
            parent,
            kind: kind.number(),
            permissions: *self.random.pick(&PERMISSIONS),
            umask: *self.random.pick(&UMASKS),
            device,
        }
    }

    fn create(&mut self) -> Call<Target> {
        let parent = self.written();
        let (permissions, umask) = (*self.random.pick(&PERMISSIONS), *self.random.pick(&UMASKS));
        Call::Create { name: self.new_name(&parent), parent, permissions, umask }
    }

    fn symlink(&mut self) -> Call<Target> {
        let parent = self.written();
        Call::Symlink { name: self.new_name(&parent), parent, content: *self.random.pick(&[0, 7, u64::MAX]) }
    }

    /// The parent is one of the directories above the source at times, so that both miss the same one.
    fn link(&mut self) -> Call<Target> {
        let source = self.source();
        let parent = match &source {
            Target::Path(path) if !path.is_empty() && self.random.chance(30) => {
                Target::Path(path[..self.random.below(path.len())].to_vec())
            }
            _ => self.written(),
        };
        Call::Link { name: self.new_name(&parent), source, parent }
    }
}
