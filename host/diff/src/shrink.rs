//! A case that diverges made smaller, as long as the same sort of divergence stays at the same sort of call.

mod tables;

use crate::call::{Call, Target, Which};
use crate::case::Case;
use crate::compare::What;
use crate::run::{Found, run_case};
use crate::side::Sides;
use std::rc::Rc;

/// What a smaller case has to keep.
#[derive(Clone, Copy, PartialEq, Eq, Debug)]
struct Sort {
    which: Which,
    what: What,
}

fn sort(case: &Case, found: &Found) -> Sort {
    let which = found.calls.checked_sub(1).map_or(Which::Import, |i| case.calls[i].which());
    Sort { which, what: found.divergence.what }
}

struct Shrinker<'a> {
    same: &'a mut dyn FnMut(&Case) -> bool,
    case: Case,
}

/// The smallest case that dropping layers, entries and calls and flattening their fields reaches.
pub fn shrink(sides: Sides, case: &Case, found: &Found) -> Case {
    let kept = sort(case, found);
    let calls = case.calls[..found.calls].to_vec();
    shrink_while(Case { calls, ..case.clone() }, &mut |candidate| {
        run_case(sides, candidate, |_, _| {}).is_some_and(|found| sort(candidate, &found) == kept)
    })
}

/// The smallest case that is reached with every step on the way the `same`.
pub fn shrink_while(case: Case, same: &mut dyn FnMut(&Case) -> bool) -> Case {
    let mut small = Shrinker { same, case };
    while small.pass() {}
    small.case
}

impl Shrinker<'_> {
    /// Takes a candidate that is smaller and still the same.
    fn take(&mut self, candidate: Case) -> bool {
        let same = candidate != self.case && (self.same)(&candidate);
        if same {
            self.case = candidate;
        }
        same
    }

    /// Every way once; whether one of them led anywhere.
    fn pass(&mut self) -> bool {
        let dropped = [self.layers(), self.calls(), self.entries(), self.directories()].contains(&true);
        let flattened = [self.records(), self.arguments(), self.names(), self.places()].contains(&true);
        dropped || flattened
    }

    fn layers(&mut self) -> bool {
        let mut taken = false;
        for k in (0..self.case.layers.lower.len()).rev() {
            let mut candidate = self.case.clone();
            Rc::make_mut(&mut candidate.layers).lower.remove(k);
            taken |= self.take(candidate);
        }
        let mut candidate = self.case.clone();
        Rc::make_mut(&mut candidate.layers).upper = None;
        taken | self.take(candidate)
    }

    fn calls(&mut self) -> bool {
        let mut taken = false;
        for i in (0..self.case.calls.len()).rev() {
            let mut candidate = self.case.clone();
            candidate.calls.remove(i);
            taken |= self.take(candidate);
        }
        taken
    }

    /// Entries in runs of falling length, so that a full table is not emptied one by one.
    fn entries(&mut self) -> bool {
        let mut taken = false;
        for length in [64, 16, 4, 1] {
            for layer in 0..=self.case.layers.lower.len() as u8 {
                for start in (0..128).step_by(length).rev() {
                    taken |= tables::without_entries(&self.case, layer, start..start + length).is_some_and(|c| self.take(c));
                }
            }
        }
        taken
    }

    /// What a directory of the root has, in the root itself.
    fn directories(&mut self) -> bool {
        let names = tables::names(&self.case);
        names.iter().filter(|name| tables::hoisted(&self.case, name).is_some_and(|c| self.take(c))).count() > 0
    }

    fn records(&mut self) -> bool {
        let mut taken = false;
        for layer in 0..=self.case.layers.lower.len() as u8 {
            for place in 1..=128 {
                for candidate in tables::plainer(&self.case, layer, place) {
                    taken |= self.take(candidate);
                }
            }
        }
        taken
    }

    /// A listing of everything, forgets of little, creations of plain things, and all that is made made in the root.
    fn arguments(&mut self) -> bool {
        let mut taken = false;
        for i in 0..self.case.calls.len() {
            for change in [plain, in_root] {
                let mut candidate = self.case.clone();
                change(&mut candidate.calls[i]);
                taken |= self.take(candidate);
            }
        }
        taken
    }

    /// Short names for long ones, everywhere at once.
    fn names(&mut self) -> bool {
        let mut taken = false;
        for name in tables::long_names(&self.case) {
            let unused = (b'c'..=b'z').map(|c| vec![c]).find(|short| !tables::names(&self.case).contains(short));
            if let Some(short) = unused {
                taken |= self.take(tables::renamed(&self.case, &name, &short));
            }
        }
        taken
    }

    /// The lowest places for what is left.
    fn places(&mut self) -> bool {
        self.take(tables::packed(&self.case))
    }
}

fn plain(call: &mut Call<Target>) {
    match call {
        Call::List { offset, size, buffer, .. } => (*offset, *size, *buffer) = (0, 4096, 4096),
        Call::Forget { amount, .. } => *amount = 1,
        Call::Create { permissions, umask, .. } => (*permissions, *umask) = (0o644, 0),
        Call::Mknod { permissions, umask, device, .. } => (*permissions, *umask, *device) = (0o644, 0, 1),
        Call::Symlink { content, .. } => *content = 0,
        _ => {}
    }
}

fn in_root(call: &mut Call<Target>) {
    if let Call::Create { parent, .. } | Call::Mknod { parent, .. } | Call::Symlink { parent, .. } | Call::Link { parent, .. } = call {
        *parent = Target::Path(Vec::new());
    }
}
