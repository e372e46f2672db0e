//! The random runs.

use crate::call::{Call, Target, Which};
use crate::case::Case;
use crate::generate::{Mode, next_call, next_load, random_layers};
use crate::random::Random;
use crate::run::{Found, Run, Step};
use crate::side::Sides;
use crate::tally::Tally;
use std::rc::Rc;
use std::time::{Duration, Instant};

/// How long a run goes on, and with which calls.
#[derive(Clone, Debug)]
pub struct Plan {
    pub cases: u64,
    pub seed: u64,
    pub time: Option<Duration>,
    pub calls: Vec<Which>,
}

/// A case that diverged, and where.
#[derive(Clone, Debug)]
pub struct Diverged {
    /// Which case of the run it was.
    pub number: u64,
    pub case: Case,
    pub found: Found,
}

/// In how many of a hundred cases the whole tree is walked, and how many calls that adds.
const WALKS: usize = 8;
const WALK: usize = 16;

/// Runs random cases until one diverges, all are done or the time is over.
pub fn random_runs(sides: Sides, plan: &Plan, tally: &mut Tally) -> Option<Diverged> {
    let start = Instant::now();
    for number in 0..plan.cases {
        if plan.time.is_some_and(|time| start.elapsed() >= time) {
            return None;
        }
        tally.cases += 1;
        if let (case, Some(found)) = random_case(sides, plan, number, tally) {
            return Some(Diverged { number, case, found });
        }
    }
    None
}

/// One case: random layers, their import, then some 10 calls, each chosen along what stands; it ends where the run does. Some cases walk
/// the whole tree first, so that what is deep down is resident.
pub fn random_case(sides: Sides, plan: &Plan, number: u64, tally: &mut Tally) -> (Case, Option<Found>) {
    let mut random = Random::of_case(plan.seed, number);
    let (mode, layers) = random_layers(&mut random);
    let layers = Rc::new(layers);
    let mut run = Run::new(sides, &layers);
    let mut case = Case { layers, calls: Vec::new() };
    let mut call: Call<Target> = Call::Import;
    let walks = (mode == Mode::Missing || random.chance(WALKS)) && plan.calls.contains(&Which::List);
    for calls in 0..random.from_to(7, 16) + if walks { WALK } else { 0 } {
        if calls > 0 {
            let load = if walks { next_load(run.standing(), &case.layers) } else { None };
            call = load.unwrap_or_else(|| next_call(&mut random, &plan.calls, run.standing(), &case.layers));
            case.calls.push(call.clone());
        }
        let (made, step) = run.step(&call);
        tally.call(made.as_ref(), &step);
        match step {
            Step::Agreed(_) | Step::Skipped => {}
            Step::Listed(_) => break,
            Step::Diverged(divergence) => return (case, Some(Found { calls, divergence })),
        }
    }
    (case, None)
}
