//! Both sides led through a case, compared after every call.

use crate::call::{Call, Target};
use crate::case::{Case, Layers};
use crate::compare::{Divergence, Judged, Pairs, What, compare_answers, compare_standings};
use crate::listed::{self, Difference, Met};
use crate::need::Before;
use crate::reach::{Reach, reached};
use crate::side::{Answer, Side, Sides, Standing};
use std::rc::Rc;

/// What came of one call.
#[derive(Clone, PartialEq, Eq, Debug)]
pub enum Step {
    /// The sides agree; the listed difference, if any, is one that stops nothing.
    Agreed(Option<Difference>),
    /// The node that it names is not resident here, so it was not called.
    Skipped,
    /// A listed difference: the run ends here.
    Listed(Difference),
    /// A difference that is on no list.
    Diverged(Divergence),
}

/// A call that was made, with our numbers, and what both sides answered.
#[derive(Clone, PartialEq, Eq, Debug)]
pub struct Made {
    pub call: Call<u64>,
    pub ours: Answer,
    pub rust: Answer,
    /// What a call that writes came upon, where it was accepted here.
    pub reached: Vec<Reach>,
}

/// Two sides over the same layers.
pub struct Run {
    ours: Box<dyn Side>,
    rust: Box<dyn Side>,
    layers: Rc<Layers>,
    /// What each side had after the last call.
    before: Standing,
    there: Standing,
    changed: bool,
    pairs: Pairs,
}

/// A call as each side is called.
struct Resolved {
    ours: Call<u64>,
    rust: Call<u64>,
}

impl Run {
    /// The sides over these layers, before their import.
    pub fn new(sides: Sides, layers: &Rc<Layers>) -> Run {
        let (ours, rust) = ((sides.ours)(layers), (sides.rust)(layers));
        let (before, there) = (ours.standing(), rust.standing());
        Run { ours, rust, layers: Rc::clone(layers), before, there, changed: false, pairs: Pairs::new() }
    }

    /// What our side has after the last call.
    pub fn standing(&self) -> &Standing {
        &self.before
    }

    /// What the Rust has after the last call.
    pub fn there(&self) -> &Standing {
        &self.there
    }

    /// Whether the last call changed anything on either side.
    pub fn changed(&self) -> bool {
        self.changed
    }

    /// The call with our numbers; none where a path leads to no resident node.
    pub fn numbered(&self, call: &Call<Target>) -> Option<Call<u64>> {
        call.renamed(|target| match target {
            Target::Path(path) => self.before.number(path),
            Target::Number(number) => Some(*number),
        })
    }

    fn resolve(&self, call: &Call<Target>) -> Option<Resolved> {
        let ours = self.numbered(call)?;
        let rust = ours.renamed(|number| Some(self.pairs.get(number).copied().unwrap_or(unknown(*number))))?;
        Some(Resolved { ours, rust })
    }

    /// Calls both sides and compares what they answer and have; no call is made where its node is not resident.
    pub fn step(&mut self, call: &Call<Target>) -> (Option<Made>, Step) {
        let Some(Resolved { ours, rust }) = self.resolve(call) else { return (None, Step::Skipped) };
        let (here, other) = (self.ours.call(&ours), self.rust.call(&rust));
        let made = Made { reached: self.reached(&ours, &here), ours: here, rust: other, call: ours };
        let (after, there) = (self.ours.standing(), self.rust.standing());
        let step = self.judge(&made, &after, &there).unwrap_or_else(Step::Diverged);
        self.changed = after != self.before || there != self.there;
        (self.before, self.there) = (after, there);
        (Some(made), step)
    }

    fn reached(&self, call: &Call<u64>, answer: &Answer) -> Vec<Reach> {
        let written = call.which().writes() && !matches!(answer, Answer::Refused(_));
        if written { reached(&Before { standing: &self.before, layers: &self.layers }, call) } else { Vec::new() }
    }

    fn judge(&mut self, made: &Made, after: &Standing, there: &Standing) -> Result<Step, Divergence> {
        refusal_kept(made, &self.before, after)?;
        let before = Before { standing: &self.before, layers: &self.layers };
        if let Some(met) = listed::rule(&before, &made.call) {
            return as_listed(met, made);
        }
        let (pairing, pairs) = compare_standings(after, there)?;
        let judged = Judged { call: &made.call, ours: after, pairing: &pairing, pairs: &pairs };
        compare_answers(&judged, &made.ours, &made.rust, |node| self.ours.whole(node))?;
        self.pairs = pairs;
        Ok(Step::Agreed(loads_more(made, &self.before, after, there)))
    }
}

/// A number that the Rust gives to no node, for one that we have not: its own rise from 1, and stay small.
fn unknown(number: u64) -> u64 {
    if number == 0 || number > 1 << 32 { number } else { number + (1 << 40) }
}

/// Where a listed difference is met both sides have to answer as listed.
fn as_listed(met: Met, made: &Made) -> Result<Step, Divergence> {
    if met.ours.met_by(&made.ours) && met.rust.met_by(&made.rust) {
        return Ok(Step::Listed(met.difference));
    }
    let (ours, rust) = (format!("{} here for {:?}", made.ours, met.ours), format!("{} there for {:?}", made.rust, met.rust));
    Err(Divergence::new(What::Listed, format!("{}: {ours}, {rust}", met.difference)))
}

/// A refusal changes nothing, except that a load done before it stays. A refused import leaves no node.
fn refusal_kept(made: &Made, before: &Standing, after: &Standing) -> Result<(), Divergence> {
    if !matches!(made.ours, Answer::Refused(_)) || made.call == Call::Import || before == after {
        return Ok(());
    }
    let mut undone = after.clone();
    if let Some((old, new)) = made.call.about().and_then(|n| before.nodes.get(n).zip(undone.nodes.get_mut(n))) {
        let added: Vec<u64> = new.children.iter().map(|c| c.1).filter(|c| !before.nodes.contains_key(c)).collect();
        new.loaded = old.loaded;
        new.children.retain(|(_, number)| !added.contains(number));
        undone.nodes.retain(|number, _| !added.contains(number));
    }
    if undone == *before {
        return Ok(());
    }
    Err(Divergence::new(What::Refusal, format!("{} here changed more than a load does", made.ours)))
}

/// The differences that stop nothing: 10 where the Rust loaded what its lookup found, 2 where the driver loaded before the count.
fn loads_more(made: &Made, before: &Standing, after: &Standing, there: &Standing) -> Option<Difference> {
    match (&made.call, &made.ours, &made.rust) {
        (Call::Lookup { .. }, Answer::Node(a), Answer::Node(b)) => {
            let more = there.nodes.get(b)?.loaded && !after.nodes.get(a)?.loaded;
            more.then_some(Difference::LookupLoads)
        }
        (Call::Count { node }, Answer::Count { .. }, _) => (!before.nodes.get(node)?.loaded).then_some(Difference::CountDoesNotLoad),
        _ => None,
    }
}

/// Where a case ended that did not run to its end.
#[derive(Clone, PartialEq, Eq, Debug)]
pub struct Found {
    /// How many of the case's calls had been made, the import not counted: 0 where the import itself diverged.
    pub calls: usize,
    pub divergence: Divergence,
}

/// Runs a whole case. `see` is told of every call that was made, the import first.
pub fn run_case(sides: Sides, case: &Case, mut see: impl FnMut(Option<&Made>, &Step)) -> Option<Found> {
    let mut run = Run::new(sides, &case.layers);
    for (calls, call) in std::iter::once(&Call::Import).chain(&case.calls).enumerate() {
        let (made, step) = run.step(call);
        see(made.as_ref(), &step);
        match step {
            Step::Agreed(_) | Step::Skipped => {}
            Step::Listed(_) => return None,
            Step::Diverged(divergence) => return Some(Found { calls, divergence }),
        }
    }
    None
}
